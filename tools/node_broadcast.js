// A server that sends each text that a client says to all clients, as it came: what tools/load_server compares psd with. It needs ws
// (of Debian's packages node-ws).
//
//     NODE_PATH=/usr/share/nodejs node tools/node_broadcast.js PORT
"use strict";
const { WebSocket, WebSocketServer } = require("ws");

const server = new WebSocketServer({ host: "127.0.0.1", port: Number(process.argv[2]), backlog: 4096, perMessageDeflate: false });
server.on("connection", (client) => {
    client.on("error", () => {});
    client.on("message", (text) => {
        for (const other of server.clients) {
            if (other.readyState === WebSocket.OPEN) other.send(text, { binary: false });
        }
    });
});
