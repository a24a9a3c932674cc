"use strict";
const turnOf = (hash) => Number(hash.slice("#turn=".length));
const states = [...document.querySelectorAll(".state")], first = turnOf("#" + states[0].id), last = first + states.length - 1;
const turns = new Map([...document.querySelectorAll(".turn")].map((row) => [turnOf(row.querySelector("a").hash), row]));
// The pages of the other parts of a long match.
const parts = [...document.querySelectorAll("#parts a")];
let shown = first, playing = null;

function show(turn) {
  states[shown - first].classList.remove("shown");
  turns.get(shown)?.classList.remove("here");
  shown = turn;
  states[shown - first].classList.add("shown");
  turns.get(shown)?.classList.add("here");
  turns.get(shown)?.scrollIntoView({ block: "nearest" });
  history.replaceState(null, "", "#" + states[shown - first].id);
}

const button = document.querySelector("[data-key=p]");

function stop() {
  clearInterval(playing);
  playing = null;
  button.textContent = "Play";
}

function play() {
  if (playing) return stop();
  if (shown === last) show(first);
  playing = setInterval(() => { show(shown + 1); if (shown === last) stop(); }, 1000);
  button.textContent = "Pause";
}

// Goes to the state after a turn, or to the page that shows this state.
function go(turn) {
  stop();
  const part = turn < first || turn > last ? parts.filter((it) => Number(it.dataset.first) <= Math.max(0, turn)).pop() : null;
  if (part && part.dataset.first !== String(first)) location.href = `${part.href}#turn=${turn}`;
  else show(Math.max(first, Math.min(last, turn)));
}

const steps = {
  Home: () => go(0),
  ArrowLeft: () => go(shown - 1),
  ArrowRight: () => go(shown + 1),
  End: () => go(Infinity),
  p: play,
  t: () => document.body.classList.toggle("turned"),
  u: () => document.body.classList.toggle("upside"),
};

document.addEventListener("keydown", (event) => {
  if (event.key in steps && !event.ctrlKey && !event.altKey && !event.metaKey) {
    event.preventDefault();
    steps[event.key]();
  }
});
for (const it of document.querySelectorAll("nav button")) it.addEventListener("click", () => steps[it.dataset.key]());
turns.forEach((row, turn) => row.addEventListener("click", () => go(turn)));
// An address such as #turn=12 opens the page at the state after that turn. Any other address opens it at the last state.
const goToAsked = () => go(/^#turn=[0-9]+$/.test(location.hash) ? turnOf(location.hash) : last);
addEventListener("hashchange", goToAsked);
document.body.classList.add("stepping");
goToAsked();
