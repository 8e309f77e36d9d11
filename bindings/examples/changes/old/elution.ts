import { plate } from "./deck";

elute(plate, 50);
incubate(plate, 120);
store(plate, 4);
