// What axe-core would look at on such a page, by the names of its rules: each function lists what
// breaks its rule. The last expression is what check_page.py gets.
(() => {
  const all = (selector) => [...document.querySelectorAll(selector)];
  const start = (element) => element.outerHTML.slice(0, 80);
  const repeated = (texts) => texts.filter((text, at) => !text || texts.indexOf(text) !== at);
  const moves = (element) => {
    const style = getComputedStyle(element);
    return /auto|scroll/.test(style.overflowX + style.overflowY)
      && (element.scrollHeight > element.clientHeight + 1 || element.scrollWidth > element.clientWidth + 1);
  };
  const foreign = (selector, names) => all(selector).filter((element) =>
    [...element.children].some((child) => !names.includes(child.tagName)));
  const without = (selector, inner) => all(selector).filter((element) =>
    element.getClientRects().length && !element.querySelector(inner));
  const outside = (selector, around) => all(selector).filter((element) => !element.closest(around));

  const RULES = {
    "html-has-lang": () => (document.documentElement.lang === "en" ? [] : ["html"]),
    "document-title": () => (document.title.trim() ? [] : ["title"]),
    "meta-viewport": () => all("meta[name=viewport]").filter((e) =>
      /user-scalable|maximum-scale/.test(e.content)).map(start),
    "duplicate-id": () => repeated(all("[id]").map((e) => e.id)),
    "page-has-heading-one": () => (all("h1").length === 1 ? [] : ["h1"]),
    "heading-order": () => {
      const levels = all("h1,h2,h3,h4").map((e) => Number(e.tagName[1]));
      return levels.filter((level, at) => at && level > levels[at - 1] + 1);
    },
    "landmark-one-main": () => (all("main").length === 1 ? [] : ["main"]),
    "landmark-unique": () => repeated(all("[role=region]").map((e) => e.getAttribute("aria-label")
      || document.getElementById(e.getAttribute("aria-labelledby")).textContent)),
    "region": () => outside("h1,h2,h3,p,table,pre,[role=listbox]", "main,header").map(start),
    "bypass": () => (document.querySelector(document.querySelector("a.skip").hash) ? [] : ["skip"]),
    "label": () => all("select,input,textarea").filter((e) => !e.labels.length && !e.hasAttribute("aria-labelledby")).map(start),
    "aria-labelledby": () => all("[aria-labelledby]").filter((e) =>
      !document.getElementById(e.getAttribute("aria-labelledby"))).map(start),
    "aria-required-children": () => [...without("[role=listbox]", "[role=option]"),
      ...without("table", "tr")].map(start),
    "aria-required-parent": () => [...outside("[role=option]", "[role=listbox]"),
      ...outside("tr", "table")].map(start),
    "aria-valid-attr-value": () => all("[aria-activedescendant]").filter((e) => {
      const active = document.getElementById(e.getAttribute("aria-activedescendant"));
      return !active || active.getAttribute("aria-selected") !== "true";
    }).map(start),
    "one-selected": () => all("[aria-selected=true]").slice(1).map(start),
    "scope-attr-valid": () => all("th").filter((e) => !["row", "col"].includes(e.scope)).map(start),
    "table-caption": () => all("table").filter((e) => !e.caption).map(start),
    "list": () => foreign("ul,ol", ["LI"]).map(start),
    "definition-list": () => foreign("dl", ["DT", "DD"]).map(start),
    "tabindex": () => all("[tabindex]").filter((e) => e.tabIndex > 0).map(start),
    "scrollable-region-focusable": () => all("body *").filter((e) => e.tabIndex < 0 && moves(e)).map(start),
    "nested-interactive": () => all("[role=option] a,[role=option] button").map(start),
    "colour-alone": () => all("[role=option]").filter((e) =>
      !e.querySelector(".spoken").textContent.trim()).map(start),
  };

  // ---- contrasts, as WCAG 2.1 defines them, of each text and what it is drawn on

  const numbers = (colour) => (colour.match(/[\d.]+/g) || [0, 0, 0, 0]).map(Number);
  const linear = (value) => (value <= 0.03928 ? value / 12.92 : ((value + 0.055) / 1.055) ** 2.4);
  const light = (colour) => numbers(colour).slice(0, 3).reduce((sum, value, at) =>
    sum + linear(value / 255) * [0.2126, 0.7152, 0.0722][at], 0);
  const ground = (element) => {
    for (let at = element; at; at = at.parentElement) {
      const colour = getComputedStyle(at).backgroundColor;
      if (numbers(colour)[3] !== 0) return colour;
    }
    return "rgb(255, 255, 255)";
  };
  const needed = (style) => {
    const size = parseFloat(style.fontSize);
    return size >= 24 || (size >= 18.66 && style.fontWeight >= 700) ? 3 : 4.5;
  };
  const isDrawn = (text) => text.data.trim() && text.parentElement.getClientRects().length
    && !text.parentElement.closest("script,style,noscript,[hidden],.spoken,.mirror,:disabled");
  const lowContrasts = () => {
    const seen = new Map();
    const walk = document.createTreeWalker(document.body, NodeFilter.SHOW_TEXT);
    while (walk.nextNode()) {
      const element = walk.currentNode.parentElement;
      if (!isDrawn(walk.currentNode)) continue;
      const style = getComputedStyle(element);
      const [more, less] = [light(style.color), light(ground(element))].sort((one, other) => other - one);
      const ratio = (more + 0.05) / (less + 0.05);
      seen.set(element.tagName + " " + ratio.toFixed(2), ratio < needed(style));
    }
    const low = [...seen.keys()].filter((what) => seen.get(what));
    return seen.size < 3 ? [...low, "too few texts were looked at"] : low;
  };

  const broken = Object.entries(RULES).map(([name, rule]) => [name, rule()]).filter(([, found]) => found.length);
  return { rules: Object.keys(RULES).length, broken, contrast: lowContrasts() };
})()
