import { plate } from "./deck";

seal(plate);
