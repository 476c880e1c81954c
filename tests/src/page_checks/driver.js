"use strict";
// Drives the pages in the frames of this document, and writes down what each shows after each action.
window.addEventListener("load", function () {
  const record = [];
  document.querySelectorAll("iframe").forEach(function (frame) {
    const inner = frame.contentDocument;
    const view = frame.contentWindow;
    const sweep = inner.getElementById("sweep");

    function numbers(kind, name) {
      const marked = Array.from(inner.querySelectorAll(kind));
      return marked.map(function (element) { return element.dataset[name]; }).join(" ");
    }

    function isShown(element) {
      return element.getClientRects().length > 0;
    }

    function note(action) {
      const root = inner.documentElement;
      const shown = Array.from(inner.querySelectorAll(".step")).filter(isShown);
      const text = shown.map(function (step) { return step.innerText.replace(/\s+/g, " ").trim(); });
      record.push([
        frame.name,
        action,
        view.innerWidth,
        root.scrollWidth > root.clientWidth ? "overflows" : "fits",
        numbers(".job.turn", "job"),
        numbers(".job.found", "job"),
        numbers(".layout[data-layout].asked", "layout"),
        numbers(".job[data-job]:not(.unreached)", "job"),
        numbers(".pass:not(.ahead)", "pass"),
        text.join(" | ")
      ].join("\t"));
    }

    function press(key, more) {
      const how = Object.assign({ key: key, bubbles: true, cancelable: true }, more);
      inner.body.dispatchEvent(new view.KeyboardEvent("keydown", how));
    }

    function point(kind, x, y) {
      const how = { pointerType: "touch", clientX: x, clientY: y, bubbles: true };
      sweep.dispatchEvent(new view.PointerEvent(kind, how));
    }

    function swipe(across, down) {
      point("pointerdown", 200, 200);
      point("pointerup", 200 + across, 200 + down);
    }

    function act(action) {
      const words = action.split(" ");
      const acts = {
        key: function () { press(words[1], {}); },
        shift: function () { press(words[1], { shiftKey: true }); },
        button: function () { inner.getElementById(words[1]).click(); },
        swipe: function () { swipe(Number(words[1]), Number(words[2])); },
        tap: function () {
          const place = inner.querySelectorAll(".place")[Number(words[1])];
          place.dispatchEvent(new view.MouseEvent("click", { bubbles: true }));
        },
        open: function () {}
      };
      acts[words[0]]();
      note(action);
    }

    frame.dataset.actions.split(",").forEach(act);
    const next = inner.getElementById("next");
    next.focus({ focusVisible: true });
    record.push([frame.name, "focus", view.getComputedStyle(next).outlineStyle].join("\t"));
  });
  document.getElementById("record").textContent = record.join("\n");
});
