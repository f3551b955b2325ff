// What the page knows of the program: an engine that makes calls and sessions. The module in the page, or the native program behind a server.
import { engineIn } from './engine.js';

export const engine = engineIn(document);
