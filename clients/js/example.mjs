// The map at http://127.0.0.1:8080/, or at the address that is given: read coarse, refined, asked for a place, and edited.
import { Client } from "./client.js";

const client = new Client(process.argv[2] ?? "http://127.0.0.1:8080/");
const { steps } = await client.info();
const map = await client.refined(steps);
console.log(`step ${map.step}: ${map.faces.size} faces`);
await client.refine(map, 0);
console.log(`step ${map.step}: ${map.faces.size} faces, ${map.edges.size} edges`);
const { face, ofClass } = await client.faceAt(12, 3, 0);
console.log(`at (12, 3): face ${face} of class ${ofClass}`);
const { version, foreseen } = await client.edit("move 20 10 24 10\n");
console.log(`version ${version}, ${foreseen ? "made from what was read" : "made from a version that was not seen"}`);
