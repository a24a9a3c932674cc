"use strict";
const $ = (id) => document.getElementById(id);
let skew = Date.now() / 1000 - Number(document.body.dataset.now);

function spelled(seconds) {
  const whole = Math.max(0, Math.floor(seconds)), two = (number) => String(number).padStart(2, "0");
  return whole < 100 ? `${whole} s` : `${Math.floor(whole / 3600)}:${two(Math.floor(whole / 60) % 60)}:${two(whole % 60)}`;
}

function tick() {
  const now = Date.now() / 1000 - skew;
  for (const it of document.querySelectorAll("[data-since]")) it.textContent = spelled(now - Number(it.dataset.since));
}

function made(html) {
  const room = document.createElement("template");
  room.innerHTML = html;
  return room.content.firstElementChild;
}

// Keeps the keyboard focus on the same link or cell.
function replace(old, other) {
  const reached = (it) => [...it.querySelectorAll("a, [tabindex]")], at = reached(old).indexOf(document.activeElement);
  old.replaceWith(other);
  if (at >= 0) reached(other)[at]?.focus({ preventScroll: true });
}

function change(news) {
  if (news.reload) { location.reload(); return; }
  skew = Date.now() / 1000 - news.now;
  for (const name of news.drop) $(name)?.remove();
  for (const [name, html] of news.set) if ($(name)) replace($(name), made(html));
  for (const [place, before, html] of news.add) $(place)?.insertBefore(made(html), before && $(before));
  tick();
}

function listen() {
  const events = new EventSource(document.body.dataset.events);
  events.onmessage = (event) => { $("lost").hidden = true; change(JSON.parse(event.data)); };
  events.onopen = () => { $("lost").hidden = true; };
  events.onerror = () => {
    $("lost").hidden = false;
    if (events.readyState === EventSource.CLOSED) setTimeout(() => location.reload(), 10000);
  };
}

setInterval(tick, 1000);
tick();
listen();
