"""A player over WebSocket, with Python's `websockets` (Debian's python3-websockets).

player.py ADDRESS NAME TEAM [FOE [SECRET]]: logs in, with SECRET if NAME is registered, says hi in the lobby, and challenges
FOE when FOE has said hi, or accepts a challenge if FOE is missing or empty. Plays by `/choose default` to the end of the
battle, and prints each text that it is sent, a line each time it ends one, with NAME before it.
"""
import asyncio
import hashlib
import json
import sys

import websockets


def assertion(challstr, secret):
    return hashlib.sha256(f"{challstr}:{secret}".encode()).hexdigest() if secret else ""


async def play(address, name, team, foe="", secret=""):
    # The message of a join has all of a battle: there is no limit to its size.
    async with websockets.connect(f"ws://{address}/showdown/websocket", max_size=None) as socket:
        asked, answered, game = False, False, ""
        async for text in socket:
            for line in text.split("\n"):
                print(f"{name}: {line}", flush=True)
            room = text[1:].split("\n")[0] if text.startswith(">") else ""
            for line in text.split("\n"):
                parts = line.split("|")
                kind = parts[1] if len(parts) > 1 else ""
                if kind == "challstr":
                    await socket.send(f"|/trn {name},0,{assertion(parts[2], secret)}")
                elif kind == "updateuser" and parts[3] == "1":
                    await socket.send(f"|/utm {team}")
                    await socket.send("|/join lobby")
                elif kind == "init" and parts[2] == "chat":
                    await socket.send("lobby|hi")
                elif kind == "c:" and foe and parts[3][1:] == foe and not asked:
                    asked = True
                    await socket.send("lobby|good luck")
                    await socket.send(f"|/challenge {foe}, gen1ou")
                elif kind == "updatechallenges" and not foe and not answered:
                    for other in json.loads(parts[2])["challengesFrom"]:
                        answered = True
                        await socket.send(f"|/accept {other}")
                elif kind == "updatesearch" and json.loads(parts[2])["games"]:
                    for game in json.loads(parts[2])["games"]:
                        await socket.send(f"|/join {game}")
                elif kind == "popup" and "[NoSuchRoom]" in line:
                    # The battle has been agreed on, and begins in a moment.
                    await socket.send(f"|/join {game}")
                elif kind == "request":
                    request = json.loads(line[len("|request|"):])
                    if not request.get("wait"):
                        await socket.send(f"{room}|/choose default|{request['rqid']}")
                elif kind in ("win", "tie"):
                    return


asyncio.run(play(*sys.argv[1:]))
