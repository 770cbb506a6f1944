/**
 * The events of scripts and the refusals of events: a table that `./check docs --write` makes of the definitions
 * (python/workshop/documents/event_words.py). After the word of an event come its operands; whether scripts of raw
 * networks have it, of programs or of both, or it happens in every carrier or in a subnet only; and the operand that
 * says where it happens. After a refusal comes who refuses. What follows the name is JSON.
 */
export const TABLE = {
"events": {
"out": ["S D N BITS OCTETS", "raw", "S"],
"take": ["H", "every", "H"],
"giveup": ["S D N", "carrier", "S"],
"hostdown": ["H", "carrier", "H"],
"hostup": ["H", "carrier", "H"],
"deliver": ["L +|- K", "subnet", "+|-"],
"drop": ["L +|- K", "subnet", "L"],
"garble": ["L +|- K", "subnet", "L"],
"resend": ["I", "subnet", "I"],
"route": ["I", "subnet", "I"],
"claim": ["I", "subnet", "I"],
"enddown": ["I L", "subnet", "I"],
"endup": ["I L", "subnet", "I"],
"impdown": ["I", "subnet", "I"],
"impup": ["I", "subnet", "I"],
"forget": ["I J", "subnet", "I"],
"abandon": ["S D N", "subnet", "D"],
"ask": ["S D N", "subnet", "S"],
"calm": ["ROUNDS", "every", ""],
"offer": ["H", "programs", "H"],
"contact": ["H P", "programs", "H"],
"echo": ["H P OCTET", "programs", "H"],
"listen": ["H SOCKET SIZE", "programs", "H"],
"opensend": ["H P OWN FOREIGN SIZE", "programs", "H"],
"openrecv": ["H P OWN FOREIGN", "programs", "H"],
"send": ["H SOCKET COUNT OCTETS", "programs", "H"],
"grant": ["H SOCKET MESSAGES ALLOWED", "programs", "H"],
"askback": ["H SOCKET FRACTION FRACTION", "programs", "H"],
"interrupt": ["H SOCKET", "programs", "H"],
"close": ["H SOCKET", "programs", "H"],
"server": ["H SOCKET SOCKET", "programs", "H"],
"user": ["H P SOCKET OWN", "programs", "H"],
"type": ["H TEXT", "programs", "H"]
},
"refusals": {
"NoSuch": "carrier",
"NoProgram": "programs",
"HasProgram": "programs",
"StillAlive": "carrier",
"IsDown": "carrier",
"IsUp": "carrier",
"Unsettled": "carrier",
"NotOutstanding": "carrier",
"Blocked": "carrier",
"NoRoom": "carrier",
"NotContacted": "programs",
"WrongEnd": "programs",
"InUse": "programs",
"NoSuchSocket": "programs",
"NotOpen": "programs",
"BadSize": "programs",
"Closing": "programs",
"NoLink": "programs",
"OverGrant": "programs"
}
};
