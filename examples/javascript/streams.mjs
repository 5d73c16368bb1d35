// Prints the streams of a program database with their sizes.
//
// usage: node --experimental-wasm-memory64 streams.mjs FILE    (newer versions of Node need no flag)
import fs from "node:fs";
import { load } from "../../dist/wasm/lib/pdb_container.mjs";

const library = await load(fs.readFileSync(new URL("../../dist/wasm/lib/pdb_container.wasm", import.meta.url)));
const file = library.open(fs.readFileSync(process.argv[2]));
for (let number = 0; number < file.streamCount; number++) {
  console.log(`stream ${number}: ${file.stream(number)?.length ?? "no"} bytes`);
}
file.close();
