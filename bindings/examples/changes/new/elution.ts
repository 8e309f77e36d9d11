import { plate } from "./deck";

elute(plate, 50);
store(plate, 4);
