#!/usr/bin/env node
/** The program `arpasim` by Node, over an input that may be named (named.js): the command of the package for npm. */

import { isTooOld } from "./oldest.js";

if (!isTooOld()) import("./named.js").then((it) => it.main(process.argv.slice(2)));
