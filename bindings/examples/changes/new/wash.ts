import { plate } from "./deck";

wash(plate, 70);
spin(plate, 60);
wash(plate, 70);
dry(plate, 300);
