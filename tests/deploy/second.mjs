// Asks a front server over HTTP/2: each line of the standard input is one request, an object with `headers`, `body` and
// `cost` in JSON, and its answer a line of the standard output, with status, headers and text; the status is 0 where none
// came. A connection has an address of its own, counted from FIRST, and is left when its requests have cost IN_A_ROW.
// usage: second.mjs PORT CERTIFICATE FIRST IN_A_ROW
import { readFileSync } from "node:fs";
import { connect } from "node:http2";
import { createInterface } from "node:readline";
import tls from "node:tls";

const [port, certificate, first, inARow] = process.argv.slice(2);
const ca = readFileSync(certificate);
const LANES = 8;
const SECONDS = 20;
let addresses = Number(first);

function nextAddress() {
    addresses += 1;
    return `127.1.${(addresses >> 8) & 255}.${addresses & 255}`;
}

/** Connections one after the other, with one request at a time. */
class Lane {
    session = null;
    left = 0;
    last = Promise.resolve();

    connection(cost) {
        if (this.left <= 0 || this.session.destroyed || this.session.closed) {
            this.session?.close();
            const socket = tls.connect({ host: "127.0.0.1", port, ca, servername: "map.example", ALPNProtocols: ["h2"], localAddress: nextAddress() });
            this.session = connect(`https://127.0.0.1:${port}`, { createConnection: () => socket });
            this.session.on("error", () => this.session.destroy());
            this.left = Number(inARow);
        }
        this.left -= cost;
        return this.session;
    }

    ask(line) {
        this.last = this.last.then(() => asked(this.connection(line.cost), line)).catch((error) => {
            this.left = 0;
            return { status: 0, headers: {}, text: String(error.code ?? error) };
        });
        return this.last;
    }
}

/** The answer to one request. */
function asked(session, { headers, body }) {
    return new Promise((take, fail) => {
        const stream = session.request(headers, { endStream: body === "" });
        let told = { ":status": 0 };
        let text = "";
        stream.setEncoding("latin1");
        stream.setTimeout(SECONDS * 1000, () => stream.close());
        stream.on("response", (given) => (told = given));
        stream.on("data", (part) => (text += part));
        stream.on("error", (error) => told[":status"] === 0 && fail(error));
        stream.on("close", () => take({ status: told[":status"], headers: { ...told }, text }));
        if (body !== "") stream.end(body);
    });
}

const lanes = Array.from({ length: LANES }, () => new Lane());
let count = 0;
let said = Promise.resolve();
for await (const line of createInterface({ input: process.stdin })) {
    const answer = lanes[count++ % LANES].ask(JSON.parse(line));
    said = said.then(() => answer).then((told) => console.log(JSON.stringify(told)));
}
await said;
process.exit();
