import { plate } from "./deck";

lyse(plate, 95);
mix(plate, 10);
