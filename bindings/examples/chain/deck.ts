import { wash } from "./wash";

const plate: Plate = load("lysis");
wash(plate, 3);
