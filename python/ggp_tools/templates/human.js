"use strict";
const $ = (id) => document.getElementById(id);
let view = {}, chosen = [], deadline = null;
const moves = () => view.legal || [];

function element(name, text) {
  const made = document.createElement(name);
  made.textContent = text;
  return made;
}

// A move that names a column gives 0 as the row.
const same = (one, other) => one[0] === other[0] && (one[1] === other[1] || !one[1]);
const chosenOf = (board) => chosen.filter((it) => it.board === board).length;
// Whether a move names the chosen places of a board, in their order.
function fits(move) {
  return chosen.every(({ board, place }, at) => {
    const earlier = chosen.slice(0, at).filter((it) => it.board === board).length;
    return move.places[board].slice(earlier).some((it) => same(it, place));
  });
}

// Whether all the places that a move names on some board are chosen. One board suffices, because two boards may have the same places.
function isWhole(move) {
  return move.places.every((own) => !own.length) || move.places.some((own, board) => own.length && own.length <= chosenOf(board));
}

async function send(values) {
  const answer = await fetch("move", { method: "POST", headers: { "Content-Type": "application/json" }, body: JSON.stringify(values) });
  if (!answer.ok) $("note").textContent = await answer.text();
}

const play = (move) => send({ move, asked: view.asked });

function choose(board, place) {
  const at = chosen.findIndex((it) => it.board === board && same(it.place, place));
  if (at >= 0) chosen.splice(at); else chosen.push({ board, place });
  let left = moves().filter(fits);
  if (!left.length) { chosen = [{ board, place }]; left = moves().filter(fits); }
  if (left.length === 1 && isWhole(left[0])) play(left[0].text);
  draw();
}

const boards = () => [...document.querySelectorAll(".board")];
const placeOf = (cell) => ["--x", "--y"].map((name) => Number(cell.style.getPropertyValue(name)));

function markCells(board, number) {
  for (const cell of board.querySelectorAll("button")) {
    const place = placeOf(cell);
    cell.classList.toggle("can", moves().some((move) => fits(move) && move.places[number].some((it) => same(it, place))));
    cell.classList.toggle("chosen", chosen.some((it) => it.board === number && same(it.place, place)));
    cell.disabled = !moves().length;
  }
}

function drawPlayer({ role, made, can }) {
  const row = element("tr", ""), name = view.name ? `you (${view.name})` : "you";
  const words = [role, role === view.role ? name : "", made, can && deadline !== null ? "to move" : ""];
  row.append(...words.map((text) => element("td", text)));
  return row;
}

function draw() {
  $("title").textContent = view.match ? `Match ${view.match}, turn ${view.turn}: you are ${view.role}` : "Waiting for a match";
  $("note").textContent = view.note || "";
  $("table").hidden = !view.players;
  $("players").replaceChildren(...(view.players || []).map(drawPlayer));
  boards().forEach(markCells);
  const word = $("filter").value.toLowerCase();
  const listed = moves().filter((move) => fits(move) && (word ? move.text.includes(word) : isWhole(move)));
  $("choice").hidden = !moves().length;
  $("moves").replaceChildren(...listed.slice(0, 400).map((move) => {
    const item = element("li", ""), button = element("button", move.text);
    button.addEventListener("click", () => play(move.text));
    item.append(button);
    return item;
  }));
  $("more").textContent = listed.length > 400 ? `and ${listed.length - 400} more` : "";
  $("referee").hidden = !view.playing && !view.referee;
  $("sender").textContent = view.referee ? `Referee: ${view.referee}${view.playing ? " (leave this match)" : ""}` : "Leave this match";
  $("first").hidden = !view.referee;
  $("leave").textContent = view.playing ? "Leave this match" : "Accept another referee";
}

const events = new EventSource("events");
events.onmessage = (event) => {
  view = JSON.parse(event.data);
  chosen = [];
  $("filter").value = "";
  // The server has made this HTML with the same templates as all pages. The templates escape everything that comes from a match.
  $("shown").innerHTML = view.state || "";
  deadline = view.left === null ? null : Date.now() + 1000 * view.left;
  draw();
};
events.onerror = () => {
  const end = ["over", "aborted"].includes(view.phase) ? view.note : "";
  $("note").textContent = `${end} The player does not answer: it has ended, or is being started again.`.trim();
};
$("filter").addEventListener("input", draw);
$("leave").addEventListener("click", () => {
  $("referee").open = false;
  send({ leave: view.playing });
});
$("shown").addEventListener("click", (event) => {
  const cell = event.target.closest(".board button");
  if (cell) choose(boards().indexOf(cell.closest(".board")), placeOf(cell));
});
setInterval(() => {
  const left = Math.max(0, Math.ceil((deadline - Date.now()) / 1000));
  $("clock").textContent = deadline === null ? "" : `${left} of ${view.clock} s`;
  $("clock").className = view.phase === "sent" ? "dim" : "";
}, 200);
