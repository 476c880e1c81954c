"use strict";
(function () {
  const steps = Array.from(document.querySelectorAll(".step"));
  if (steps.length === 0) {
    return;
  }
  const sweep = document.getElementById("sweep");
  const last = steps.length - 1;
  let current = 0;

  // Gives a class to those elements of a kind whose data pass a test, and takes it from the others.
  function mark(kind, name, test) {
    document.querySelectorAll(kind).forEach(function (element) {
      element.classList.toggle(name, test(element.dataset));
    });
  }

  // A button at its end stays in the order of the tab key.
  function allow(button, allowed) {
    document.getElementById(button).setAttribute("aria-disabled", String(!allowed));
  }

  function show(wanted) {
    current = Math.max(0, Math.min(last, wanted));
    const turn = steps[current].dataset;
    const reached = turn.reached.split(" ");
    const made = Number(turn.made);
    steps.forEach(function (step, number) {
      step.classList.toggle("current", number === current);
    });
    mark("svg [data-job]", "turn", function (data) { return data.job === turn.job; });
    mark("svg [data-job]", "found", function (data) { return data.job === turn.found; });
    mark("svg .job[data-job]", "unreached", function (data) { return !reached.includes(data.job); });
    mark("svg [data-in]", "ahead", function (data) { return Number(data.in) > made; });
    mark("svg [data-pass]", "ahead", function (data) { return Number(data.pass) > made; });
    mark("svg .layout[data-layout]", "asked", function (data) { return data.layout === turn.asked; });
    mark("svg .place[data-place]", "turn", function (data) { return Number(data.place) === current; });
    ["first", "back"].forEach(function (button) { allow(button, current !== 0); });
    ["next", "last"].forEach(function (button) { allow(button, current !== last); });
  }

  const moves = {
    first: function () { show(0); },
    back: function () { show(current - 1); },
    next: function () { show(current + 1); },
    last: function () { show(last); }
  };
  Object.keys(moves).forEach(function (name) {
    document.getElementById(name).addEventListener("click", moves[name]);
  });

  const keys = { Home: "first", ArrowLeft: "back", ArrowRight: "next", End: "last" };
  document.addEventListener("keydown", function (event) {
    const held = [event.altKey, event.ctrlKey, event.metaKey, event.shiftKey].includes(true);
    if (held || !(event.key in keys)) {
      return;
    }
    event.preventDefault();
    moves[keys[event.key]]();
  });

  // A finger that moves farther across than down, by at least 40 pixels, turns the page.
  let from = null;
  sweep.addEventListener("pointerdown", function (event) {
    from = event.pointerType === "mouse" ? null : event;
  });
  sweep.addEventListener("pointerup", function (event) {
    if (from === null) {
      return;
    }
    const across = event.clientX - from.clientX;
    const down = event.clientY - from.clientY;
    from = null;
    if (Math.abs(across) >= Math.max(40, Math.abs(down))) {
      (across > 0 ? moves.back : moves.next)();
    }
  });

  document.querySelectorAll("svg .place").forEach(function (place) {
    place.addEventListener("click", function () { show(Number(place.dataset.place)); });
  });

  document.body.classList.add("stepping");
  document.getElementById("controls").hidden = false;
  show(0);
}());
