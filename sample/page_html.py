"""The page's HTML: one template, its style, and what is put into it.

There is no script in it, and nothing is loaded from elsewhere. What is said stands in words, and the colours only repeat it: the page is to be
understood in grey and on paper too.
"""
from html import escape
from string import Template

import page_words as words
from plot import VERDICTS, Picture

# Each kind's colour and that of words on it: those of the plot, and a dark one for the night, which lies between frozen and black in grey.
COLOURS = {name: VERDICTS[name][:2] for name in ("live", "undecided", "frozen")}
COLOURS.update(resting=("#33307a", "#ffffff"), silent=VERDICTS["refused"][:2], none=VERDICTS["early"][:2])
# Each kind's sign: it runs, it is asked, it is halted, it is night, it is struck out.
SIGNS = {
    "live": "M6 3l15 9-15 9z",
    "undecided": "M12 2a7 7 0 0 1 2 13.7V17h-4v-3.6l1.4-.5A3.2 3.2 0 1 0 8.8 9H5a7 7 0 0 1 7-7zM10 19h4v4h-4z",
    "frozen": "M5 3h5v18H5zM14 3h5v18h-5z",
    "resting": "M14 2a10.2 10.2 0 1 0 8 13.5A8.5 8.5 0 0 1 14 2z",
    "silent": "M5 2l7 7 7-7 3 3-7 7 7 7-3 3-7-7-7 7-3-3 7-7-7-7z",
    "none": "M3 10h18v4H3z",
}

STYLE = """
:root { color-scheme: only light; }
* { box-sizing: border-box; }
body { margin: 0; background: #f4f6f8; color: #1c2733; font: 1rem/1.5 system-ui, -apple-system, "Segoe UI", Roboto, "Noto Sans", sans-serif; }
header, main, footer { max-width: 68rem; margin: 0 auto; padding: 0 .75rem; }
h1, h2, p, dl, dd, figure { margin: 0; }
h1 { font-size: 1.125rem; line-height: 1.3; padding: .6rem 0; overflow-wrap: anywhere; }
h2 { font-size: 1.0625rem; }
.verdict { display: grid; grid-template-columns: auto 1fr; gap: .3rem .7rem; align-items: center; padding: .7rem .9rem .8rem;
  background: var(--fill); color: var(--ink); border: 1px solid #5a6773; border-radius: .5rem; }
.verdict svg { width: 1.6rem; height: 1.6rem; fill: currentColor; }
.verdict h2 { font-size: 1.25rem; line-height: 1.25; }
.verdict p { grid-column: 1 / -1; max-width: 46em; line-height: 1.45; text-wrap: pretty; }
.columns { display: grid; gap: .75rem; margin: .75rem 0; align-items: start; }
figure, .facts, .day { background: #fff; border: 1px solid #b9c2ca; border-radius: .5rem; overflow: hidden; }
figcaption { padding: .6rem .9rem .7rem; }
.old figcaption { background: var(--fill); color: var(--ink); }
.flag, .age, .counted { display: block; }
.flag { font-weight: 600; }
.age { font-size: 1.5rem; line-height: 1.2; font-weight: 700; text-wrap: balance; }
.counted { margin-top: .3rem; font-size: .875rem; line-height: 1.4; }
.frame { background: #1c2733; }
.old .frame { padding: .7rem; background: repeating-linear-gradient(135deg, var(--fill) 0 .7rem, var(--ink) .7rem 1.4rem); }
.frame img { display: block; margin: 0 auto; width: min(100%, 80vh * var(--wide) / var(--high)); height: auto; background: #fff;
  image-rendering: crisp-edges; image-rendering: pixelated; }
.empty { display: grid; place-items: center; align-self: stretch; min-height: 9rem; border: 2px dashed #5a6773; border-radius: .5rem;
  font-weight: 600; }
.facts, .day { padding: .8rem .9rem .9rem; }
.facts dt { font-weight: 600; }
.facts dd { margin-bottom: .6rem; }
.facts h2 { margin-bottom: .5rem; padding-top: .8rem; border-top: 1px solid #d5dbe0; }
.facts p, .day p, .legend dd { font-size: .9375rem; }
.facts p, .day p, footer { color: #4a5763; }
.legend dt { display: inline-block; padding: 0 .6rem; border: 1px solid #5a6773; border-radius: .25rem; }
.legend dd { margin-top: .15rem; }
.scroll { overflow-x: auto; margin-top: .5rem; }
.scroll svg { display: block; width: 100%; min-width: 52rem; height: auto; }
footer { margin-top: .75rem; margin-bottom: 5rem; font-size: .875rem; }
.stale { position: fixed; left: 0; right: 0; bottom: 0; padding: .8rem 1rem; background: #000; color: #fff; font-weight: 600; text-align: center;
  visibility: hidden; animation: stale 1ms 600s forwards; }
.stale a { color: #fff; }
@keyframes stale { to { visibility: visible; } }
@media (min-width: 48rem) {
  body { font-size: 1.0625rem; }
  header, main, footer { padding: 0 1.5rem; }
  h1 { font-size: 1.375rem; padding: 1rem 0 .8rem; }
  .verdict { padding: .9rem 1.2rem 1.1rem; column-gap: 1rem; }
  .verdict svg { width: 2rem; height: 2rem; }
  .verdict h2 { font-size: 1.625rem; }
  .verdict p { grid-column: 2; }
  .columns { grid-template-columns: minmax(0, 3fr) minmax(0, 2fr); gap: 1rem; margin: 1rem 0; }
  figcaption { padding: .8rem 1.2rem .9rem; }
  .age { font-size: 1.75rem; }
  .facts, .day { padding: 1rem 1.2rem 1.1rem; }
}
@media (min-width: 60rem) {
  .age { font-size: 2rem; }
  .sideways { display: none; }
}
@media print {
  body { background: #fff; -webkit-print-color-adjust: exact; print-color-adjust: exact; }
  .scroll svg { min-width: 0; }
  .stale, .sideways { display: none; }
  .verdict, figure, .facts, .day { break-inside: avoid; }
}
"""

PAGE = Template("""<!DOCTYPE html>
<html lang="en">
<head>
<meta charset="utf-8">
<meta name="viewport" content="width=device-width, initial-scale=1">
<title>$tab</title>
<link rel="icon" href="data:,">
<style>$style</style>
</head>
<body style="--fill: $fill; --ink: $ink">
<header>
<h1>$title</h1>
</header>
<main>
<section class="verdict">
<svg viewBox="0 0 24 24" aria-hidden="true"><path d="$sign"/></svg>
<h2>$heading</h2>
<p>$sentences</p>
</section>
<div class="columns">
$figure<section class="facts">
<dl>
$facts
</dl>
<h2>What the words mean</h2>
<dl class="legend">
$legend
</dl>
<p>$below</p>
</section>
</div>
<section class="day">
<h2>The day, frame by frame</h2>
<p>$plotted <span class="sideways">Scroll it sideways: the newest frames are at its right end.</span></p>
<div class="scroll" tabindex="0" role="region" aria-label="Plot of the day, can be scrolled sideways">
$plot</div>
</section>
</main>
<footer>
<p>This page was made $made. It does not change by itself: what it tells is older by all the time since.</p>
</footer>
<p class="stale">This page was opened more than 10 minutes ago, and all that it tells is older by now. <a href="">Load it anew</a></p>
</body>
</html>
""")

FIGURE = Template("""<figure class="$fresh">
<figcaption><span class="flag">$flag</span> <strong class="age">$age</strong> <span class="counted">$counted</span></figcaption>
<div class="frame"><img src="data:image/png;base64,$picture" width="$wide" height="$high" style="--wide: $wide; --high: $high" alt="$alt"></div>
</figure>
""")
# In the place of a picture, so that nobody waits for one to load.
NO_FIGURE = '<p class="empty">No picture is shown</p>\n'


def pairs(of, style=lambda name: ""):
    return "\n".join(f"<dt{style(name)}>{escape(name)}</dt><dd>{escape(says)}</dd>" for name, says in of.items())


def figure(view, title, made, size, picture):
    """The picture with its age: neither is ever written without the other."""
    flag, age = words.flag(view), words.age(view)
    alt = f"Picture of {title}. Verdict: {view.verdict}. {flag}. {age}."
    fresh = "new" if words.fresh(view) else "old"
    says = {"flag": flag, "age": age, "counted": words.counted(view, made), "alt": alt}
    return FIGURE.substitute({name: escape(text) for name, text in says.items()}, fresh=fresh, wide=size[0], high=size[1], picture=picture)


def chip(name):
    fill, ink = COLOURS[name]
    return f' style="background: {fill}; color: {ink}"'


def page(view, rows, title, made, size, picture):
    """The whole page. rows are all of them, as plot.py takes them; picture is in base64, and without one there is no figure."""
    kind, heading = words.kind(view), words.heading(view)
    says = {
        "title": title,
        "made": made,
        "heading": heading,
        "sentences": " ".join(words.sentences(view)),
        "tab": f"{heading}. {words.age(view) + '. ' if picture else ''}{title}",
        "below": words.below(view),
        "plotted": words.plotted(view),
    }
    return PAGE.substitute(
        {name: escape(text) for name, text in says.items()},
        style=STYLE,
        fill=COLOURS[kind][0],
        ink=COLOURS[kind][1],
        sign=SIGNS[kind],
        figure=figure(view, title, made, size, picture) if picture else NO_FIGURE,
        facts=pairs(words.facts(view)),
        legend=pairs(words.LEGEND, chip),
        plot=Picture(rows).drawn(),
    )
