/* The search box: it hides what doesn't have the words, and in a folder of pages lists what has them. Whatever is found is put there as text. */
"use strict";
(() => {
  const form = document.getElementById("search"), main = document.querySelector("main"), found = document.getElementById("found");
  const { words: box, kind: choice } = form.elements, said = form.querySelector("output"), files = Number(form.dataset.files);
  const AT_ONCE = 200, entries = [];
  let loading, latest = 0;

  const plain = (text) => text.normalize("NFKD").replace(/\p{M}/gu, "").toUpperCase().toLowerCase(); // ß as ss
  const make = (name, text, parent) => Object.assign(parent.appendChild(document.createElement(name)), { textContent: text });

  /* Adds an entry: its kind, its words, and its parts, which are the names of its pictures. */
  const add = (kind, head, parts, more) => entries.push({ kind, head: plain(head), parts: parts.map(plain), ...more });

  /* The parts of an entry that fit; undefined if the entry doesn't. A word may be in the entry or in a part. */
  const fitting = (entry, words, kind) => {
    if (kind && entry.kind !== kind && !entry.kind.startsWith(kind + "/")) return undefined;
    const left = words.filter((word) => !entry.head.includes(word));
    const fit = [...entry.parts.keys()].filter((at) => left.every((word) => entry.parts[at].includes(word)));
    return fit.length || !left.length ? fit : undefined;
  };

  /* The text of an element, without what is within some elements. */
  const textOf = (node, without) => {
    if (node.nodeType === Node.TEXT_NODE) return node.data;
    if (without.includes(node)) return "";
    const gap = ["INS", "DEL", "CODE"].includes(node.nodeName) ? "" : " ";
    return gap + [...node.childNodes].map((it) => textOf(it, without)).join("") + gap;
  };

  const readPage = () => {
    for (const node of main.querySelectorAll("article, .files tbody tr")) {
      const pictures = [...node.querySelectorAll(".small:not(.pair) > li")], kind = node.closest("section").id;
      const head = textOf(node, pictures) + (node.dataset.labels ?? "");
      add(node.dataset.kind ? `${kind}/${node.dataset.kind}` : kind, head, pictures.map((it) => textOf(it, [])), { node, pictures });
    }
  };

  const filterPage = (words, kind) => {
    let shown = 0;
    for (const entry of entries) {
      const fit = fitting(entry, words, kind);
      entry.node.hidden = !fit;
      entry.pictures.forEach((picture, at) => { picture.hidden = Boolean(fit) && !fit.includes(at); });
      shown += Boolean(fit);
    }
    const is_asked = words.length > 0 || kind !== "";
    for (const section of main.querySelectorAll("section")) section.hidden = is_asked && !section.querySelector("article:not([hidden]), .files tbody tr:not([hidden])");
    for (const head of main.querySelectorAll("h3.cause, h3.cause ~ p")) head.hidden = is_asked;
    said.textContent = is_asked ? `${shown} of ${entries.length} entries` : "";
  };

  const loadIndex = async () => {
    window.exifnormIndex = (list) => list.forEach(([place, kind, text, names]) => add(kind, text, names, { place, text, names }));
    for (let number = 1; number <= files; number += 1) {
      await new Promise((done, failed) => {
        const script = make("script", "", document.head);
        Object.assign(script, { src: `search-${number}.js`, onload: done, onerror: () => failed(new Error(`search-${number}.js can't be read`)) });
      });
    }
  };

  const showFrom = (hits, start) => {
    for (const { entry, name } of hits.slice(start, start + AT_ONCE)) {
      const item = make("li", "", found);
      make("a", name, item).setAttribute("href", entry.place);
      make("span", [...choice.options].find((it) => it.value === entry.kind)?.text ?? entry.kind, item).className = "tag";
      make("span", entry.text.slice(0, 200), item).className = "note";
    }
    if (hits.length <= start + AT_ONCE) return;
    const more = make("button", `Show ${Math.min(AT_ONCE, hits.length - start - AT_ONCE)} more`, make("li", "", found));
    more.onclick = () => { more.parentNode.remove(); showFrom(hits, start + AT_ONCE); };
  };

  const listFound = (words, kind) => {
    const hits = entries.flatMap((entry) => (fitting(entry, words, kind) ?? []).map((at) => ({ entry, name: entry.names[at] })));
    found.replaceChildren();
    showFrom(hits, 0);
    said.textContent = `${hits.length} found`;
  };

  const search = async () => {
    const words = plain(box.value).split(/\s+/).filter(Boolean), kind = choice ? choice.value : "", run = latest += 1;
    const is_asked = words.length > 0 || kind !== "";
    const atFound = () => scrollTo(0, Math.min(scrollY, main.offsetTop - form.offsetHeight)); // or the first ones are above what is seen
    // the address has it, so that somebody who comes back from a picture finds it again
    history.replaceState(null, "", is_asked ? `#${new URLSearchParams({ find: box.value, kind })}` : location.href.split("#")[0]);
    if (!files) {
      filterPage(words, kind);
      return is_asked ? atFound() : undefined;
    }
    main.hidden = is_asked;
    found.hidden = !is_asked;
    said.textContent = is_asked ? "searching" : "";
    if (!is_asked) return undefined;
    try {
      await (loading ??= loadIndex());
    } catch (why) {
      said.textContent = why.message;
      return undefined;
    }
    if (run !== latest) return undefined;
    listFound(words, kind);
    return atFound();
  };

  if (!files) readPage();
  form.addEventListener("submit", (event) => event.preventDefault());
  form.addEventListener("input", search);
  found?.addEventListener("click", (event) => { // a place of this page, which is hidden
    if (!event.target.closest("a[href^='#']")) return;
    form.reset();
    search();
  });
  form.hidden = false;
  const readAddress = () => {
    const asked = new URLSearchParams(location.hash.slice(1)), place = document.getElementById(location.hash.slice(1));
    if (!asked.has("find")) {
      if (!place || !box.value && !choice?.value) return;
      form.reset(); // the place may be hidden
      search();
      place.scrollIntoView();
      return;
    }
    box.value = asked.get("find");
    if (choice) choice.value = asked.get("kind");
    search();
  };
  addEventListener("hashchange", readAddress);
  addEventListener("beforeprint", () => { for (const it of document.querySelectorAll("details")) it.open = true; });
  readAddress();
})();
