// Writes what the page's reader made of each text, as the numbers of its characters: between tags, in both attributes,
// and what the scripts read; then of each element its parent's name, its own and those of its attributes. An empty line
// stands between two lists. It waits a second for what a text could start when the page is there.
const line = (text) => JSON.stringify(Array.from(text, (it) => it.codePointAt(0)));
addEventListener("load", () => setTimeout(() => {
  const all = Array.from(document.querySelectorAll("p"));
  const third = (first, of) => all.filter((_, at) => at % 3 === first).map(of);
  const lists = [
    third(0, (it) => it.textContent),
    third(1, (it) => it.title),
    third(2, (it) => it.title),
    read,
    Array.from(document.querySelectorAll("*"), (it) => [it.parentNode.nodeName, it.nodeName, ...it.getAttributeNames()].join(" ")),
  ];
  document.body.textContent = "";
  const made = document.createElement("pre");
  made.id = "points";
  made.textContent = lists.map((list) => list.map(line).join("\n")).join("\n\n");
  document.body.append(made);
}, 1000));
