// A player over WebSocket, with node's `ws` (Debian's node-ws).
//
// player.js ADDRESS NAME TEAM [FOE [SECRET]]: as player.py.
"use strict";
const crypto = require("crypto");
const WebSocket = require("ws");

const [address, name, team, foe, secret] = process.argv.slice(2);
const socket = new WebSocket(`ws://${address}/showdown/websocket`);
let asked = false;
let answered = false;
let game = "";

function assertion(challstr) {
  return secret ? crypto.createHash("sha256").update(`${challstr}:${secret}`).digest("hex") : "";
}

function hear(room, line) {
  const parts = line.split("|");
  switch (parts[1]) {
    case "challstr":
      socket.send(`|/trn ${name},0,${assertion(parts[2])}`);
      break;
    case "updateuser":
      if (parts[3] === "1") {
        socket.send(`|/utm ${team}`);
        socket.send("|/join lobby");
      }
      break;
    case "init":
      if (parts[2] === "chat") socket.send("lobby|hi");
      break;
    case "c:":
      if (foe && parts[3].slice(1) === foe && !asked) {
        asked = true;
        socket.send("lobby|good luck");
        socket.send(`|/challenge ${foe}, gen1ou`);
      }
      break;
    case "updatechallenges":
      if (!foe && !answered) {
        for (const other of Object.keys(JSON.parse(parts[2]).challengesFrom)) {
          answered = true;
          socket.send(`|/accept ${other}`);
        }
      }
      break;
    case "updatesearch":
      for (game of Object.keys(JSON.parse(parts[2]).games || {})) {
        socket.send(`|/join ${game}`);
      }
      break;
    case "popup":
      // The battle has been agreed on, and begins in a moment.
      if (line.includes("[NoSuchRoom]")) socket.send(`|/join ${game}`);
      break;
    case "request": {
      const request = JSON.parse(line.slice("|request|".length));
      if (!request.wait) socket.send(`${room}|/choose default|${request.rqid}`);
      break;
    }
    case "win":
    case "tie":
      socket.close();
      break;
  }
}

socket.on("message", (bytes) => {
  const text = bytes.toString();
  const room = text.startsWith(">") ? text.slice(1).split("\n")[0] : "";
  for (const line of text.split("\n")) {
    console.log(`${name}: ${line}`);
    hear(room, line);
  }
});
socket.on("error", (error) => {
  console.error(`${name}: ${error.message}`);
  process.exitCode = 1;
});
