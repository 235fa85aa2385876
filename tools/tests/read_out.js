// Rules for who reads a page by a screen reader or goes through it by the keyboard, tried in the page itself.
// Gives what breaks one, each with the rule.
(() => {
  const all = selector => [...document.querySelectorAll(selector)];
  const faults = [], shown = each => each.outerHTML.slice(0, 90).replaceAll("\n", " ");
  const isSeen = each => each.checkVisibility({visibilityProperty: true});
  const say = (rule, each) => faults.push(rule + ": " + (typeof each === "string" ? each : shown(each)));
  const once = (selector, rule) => {
    if (all(selector).length !== 1) say(rule, String(all(selector).length));
  };

  // ---- the document
  if (!document.documentElement.lang) say("the page says its language", "");
  if (!document.title.trim()) say("the page has a title", "");
  once("main", "there is one main part");
  once("h1", "there is one first heading");
  once("body > header", "there is one head");
  all("nav").filter(each => !each.getAttribute("aria-label")).forEach(each => say("a nav has a name", each));
  let level = 0;
  all("h1, h2, h3, h4, h5, h6").filter(isSeen).forEach(each => {
    const own = Number(each.tagName[1]);
    if (own > level + 1) say("no level of headings is left out", each);
    level = own;
  });
  const ids = all("[id]").map(each => each.id);
  ids.filter((id, place) => ids.indexOf(id) !== place).forEach(id => say("an id is there once", id));

  // ---- tables
  all("th").filter(each => !each.getAttribute("scope")).forEach(each => say("a head says of what", each));
  all("th").filter(each => !each.textContent.trim()).forEach(each => say("a head isn't empty", each));
  all("table").filter(each => !each.querySelector("th")).forEach(each => say("a table has heads", each));

  // ---- what can be pressed
  const taken = "a[href], button, input, select, summary, [tabindex='0']";
  all("body *").filter(isSeen).filter(each => getComputedStyle(each).cursor === "pointer").forEach(each => {
    if (!each.closest(taken + ", label") && !each.querySelector(taken) && !each.closest("tr:has(button)")) {
      say("what is pressed by the mouse is reached by the keyboard", each);
    }
  });
  all("[tabindex]").filter(each => Number(each.getAttribute("tabindex")) > 0).forEach(each =>
    say("the order of the keyboard is that of the page", each));
  all("[tabindex='0']").filter(each => !each.getAttribute("role") && !each.matches(taken.split(", [")[0]))
    .forEach(each => say("what is reached says what it is", each));
  all("[role=img] [tabindex], [role=img] button, [role=img] a[href]").forEach(each =>
    say("nothing within a picture is pressed", each));

  // ---- colors: 4.5 to 1, as WCAG 2.2 asks in 1.4.3
  const parts = color => (color.match(/[\d.]+/g) || []).map(Number);
  const light = color => {
    const [r, g, b] = parts(color).map(part => part / 255)
      .map(part => part <= 0.04045 ? part / 12.92 : ((part + 0.055) / 1.055) ** 2.4);
    return 0.2126 * r + 0.7152 * g + 0.0722 * b;
  };
  const isClear = color => parts(color).length === 4 && parts(color)[3] === 0;
  const behind = each => {
    for (let at = each; at; at = at.parentElement) {
      if (at instanceof SVGElement && !(at instanceof SVGSVGElement)) {
        const rect = at.querySelector(":scope > rect");
        if (rect) return getComputedStyle(rect).fill;
        continue;
      }
      if (!isClear(getComputedStyle(at).backgroundColor)) return getComputedStyle(at).backgroundColor;
    }
    return "rgb(255, 255, 255)";
  };
  const walker = document.createTreeWalker(document.body, NodeFilter.SHOW_TEXT);
  const seen = new Set();
  while (walker.nextNode()) {
    const each = walker.currentNode.parentElement;
    if (!walker.currentNode.textContent.trim() || seen.has(each) || !isSeen(each)) continue;
    seen.add(each);
    if (each.closest("script, style, noscript, title, :disabled")) continue;
    const style = getComputedStyle(each);
    const ink = light(each instanceof SVGElement ? style.fill : style.color), back = light(behind(each));
    const ratio = (Math.max(ink, back) + 0.05) / (Math.min(ink, back) + 0.05);
    if (ratio < 4.5) say(`texts stand out from what is behind them (${ratio.toFixed(2)})`, each);
  }
  return faults;
})()
