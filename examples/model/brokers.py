"""A broker between some clients and one TPM: each client has session handles of its own, and at most four open sessions."""

import tpm as chip

ON_A_SESSION = ("policy-pcr", "policy-or", "policy-authorize-nv", "policy-get-digest", "flush-session", "unseal")
FIRST, OPEN, HAD = 0x03000000, 4, 0x01000000


class Client:
    """A client's open sessions, the TPM's handle of each by its own, and how many it has had."""

    def __init__(self):
        self.sessions, self.had = {}, 0


class Broker:
    def __init__(self, tpm, clients):
        self.tpm, self.clients = tpm, [Client() for _ in range(clients)]

    def answer(self, number, line):
        """What a client is answered to a command line that is known to be good."""
        client = self.clients[number]
        name, *words = line.split(" ")
        if name == "start-session":
            return self.start(client, line)
        if name in ON_A_SESSION:
            return self.on_a_session(client, name, *words)
        told = chip.answer(self.tpm, line)
        if name == "restart" and told == "done":
            for other in self.clients:
                other.sessions = {}
        return told

    def start(self, client, line):
        if len(client.sessions) == OPEN:
            return "refused sessions-full"
        if client.had == HAD:
            return "refused handles-end"
        told = chip.answer(self.tpm, line)
        if not told.startswith("session "):
            return told
        own = FIRST + client.had
        client.had += 1
        client.sessions[own] = chip.number(told.removeprefix("session "))
        return f"session {own:08x}"

    def on_a_session(self, client, name, own, *words):
        handle = client.sessions.get(chip.number(own))
        if handle is None:
            return f"refused handle {chip.number(own):08x}"
        if name == "flush-session":
            del client.sessions[chip.number(own)]
        return chip.answer(self.tpm, " ".join([name, f"{handle:08x}", *words]))

    def leave(self):
        """All clients leave, and their sessions end."""
        for client in self.clients:
            for own in sorted(client.sessions):
                self.tpm.flush(client.sessions.pop(own))
