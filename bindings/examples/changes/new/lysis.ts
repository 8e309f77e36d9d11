import { plate } from "./deck";

lyse(plate, 95);
shake(plate, 10);
