#!/usr/bin/env python3
"""The smallest player that interprets the rules. It answers with the first legal move that it finds."""

import argparse
import re
from http.server import BaseHTTPRequestHandler, HTTPServer


def read(text):
    """Parses an expression. An atom becomes a string, and a list becomes a tuple."""
    stack = [[]]
    for token in re.findall(r"[()]|[^\s()]+", text):
        if token == "(":
            stack.append([])
        elif token == ")":
            members = tuple(stack.pop())
            stack[-1].append(members)
        else:
            stack[-1].append(token)
    return stack[0][0]


def show(expression):
    return expression if isinstance(expression, str) else f"({' '.join(map(show, expression))})"


class Match:
    def __init__(self, role, sentences):
        self.role, self.bodies = role, {}
        for sentence in sentences:
            head, *body = sentence[1:] if sentence[0] == "<=" else [sentence]
            self.bodies.setdefault(head, []).append(body)
        self.roles = [role for _, role in self.heads("role", set())]
        self.state = [term for _, term in self.heads("init", set())]

    def heads(self, word, facts):
        """Returns the true heads that begin with a word. `facts` are the `true` and `does` sentences that are true now."""
        self.facts, self.known = facts, {}
        return [head for head in self.bodies if head[0] == word and self.holds(head)]

    def holds(self, literal):
        match literal:
            case ("not", inner):
                return not self.holds(inner)
            case ("or", *literals):
                return any(map(self.holds, literals))
            case ("distinct", left, right):
                return left != right
            case ("true" | "does", *_):
                return literal in self.facts
        if literal not in self.known:
            self.known[literal] = any(all(map(self.holds, body)) for body in self.bodies.get(literal, []))
        return self.known[literal]

    def move(self, joint_move):
        """Returns a legal move. Before every turn except the first, goes to the next state."""
        if joint_move != "nil":
            moves = {("does", role, move) for role, move in zip(self.roles, joint_move)}
            self.state = [term for _, term in self.heads("next", self.present() | moves)]
        return next(move for _, role, move in self.heads("legal", self.present()) if role == self.role)

    def present(self):
        return {("true", term) for term in self.state}


class Player(BaseHTTPRequestHandler):
    matches = {}

    def do_POST(self):
        message = read(self.rfile.read(int(self.headers["Content-Length"])).decode("ascii").lower())
        answer = self.answer(self.headers["Receiver"], *message).encode("ascii")
        self.send_response(200)
        self.send_header("Content-Type", "text/acl")
        self.send_header("Content-Length", str(len(answer)))
        self.end_headers()
        self.wfile.write(answer)

    def answer(self, receiver, kind, match_id="", *arguments):
        # Two roles of a match may have this address, under different names.
        key = match_id, receiver
        match kind:
            case "info":
                return "available"
            case "start":
                role, sentences, _start_clock, _play_clock = arguments
                self.matches[key] = Match(role, sentences)
                return "ready"
            case "play" if key in self.matches:
                return show(self.matches[key].move(arguments[0]))
        self.matches.pop(key, None)
        return "done"


parser = argparse.ArgumentParser(description=__doc__)
parser.add_argument("port", metavar="PORT", type=int, help="the port of 127.0.0.1 where the player listens")
HTTPServer(("127.0.0.1", parser.parse_args().port), Player).serve_forever()
