"""The script of theories' pages: keys that go from command to command. Pages are read without it too."""

SCRIPT = """\
"use strict";
(() => {
  const text = document.getElementById("text");
  if (!text) return;
  const commands = [...text.querySelectorAll(".command[tabindex]")];
  if (!commands.length) return;

  // One stop of the Tab key for the whole text; from there the keys below go on.
  let current = 0;
  commands.forEach((command, number) => { command.tabIndex = number ? -1 : 0; });

  function choose(number) {
    commands[current].tabIndex = -1;
    current = number;
    commands[current].tabIndex = 0;
  }

  function go(number) {
    if (number < 0 || number >= commands.length) return;
    choose(number);
    commands[current].focus({ preventScroll: true });
    commands[current].scrollIntoView({ block: "nearest" });
  }

  function nextError() {
    const behind = commands.findIndex((command, number) => number > current && command.matches(".in-error"));
    return behind >= 0 ? behind : commands.findIndex((command) => command.matches(".in-error"));
  }

  text.addEventListener("focusin", (event) => {
    const number = commands.indexOf(event.target.closest(".command"));
    if (number >= 0) choose(number);
  });

  text.addEventListener("keydown", (event) => {
    if (event.altKey || event.ctrlKey || event.metaKey) return;
    const steps = { j: current + 1, ArrowDown: current + 1, k: current - 1, ArrowUp: current - 1, e: nextError() };
    if (event.key === "Escape") event.target.blur();
    if (!(event.key in steps)) return;
    event.preventDefault();
    go(steps[event.key]);
  });

  const keys = document.createElement("p");
  keys.className = "remark keys";
  keys.textContent = "Keys, once a command is chosen by Tab or a click: j and k, or the arrows, go to the next" +
    " command and to the one before, e goes to the next error, Escape leaves.";
  text.after(keys);
})();
"""
