// What the module of the decoder and the encoder exports: the calls of hayro_ccitt.h and fax_encode.h, `allocate` and `release`, and its
// memory.

import { load } from "./loading.js";

export const calls = await load("hayro_ccitt.wasm");
