// A key's profile, drawn from its cuts: deep cuts are low, and where a cut has a range of depths a band shows it.

const CUT = { width: 20, slope: 5, left: 64, top: 10, depth: 2.6, bottom: 46 };

/** The bow, with its hole. */
const BOW = "M28 4a24 24 0 1 0 0 48a24 24 0 0 0 24-14h12v-20h-12a24 24 0 0 0-24-14zM18 20a8 8 0 1 1 0 16a8 8 0 0 1 0-16z";

/** The top edge of a blade with these depths. */
function edge(depths) {
    const tops = depths.map((depth) => CUT.top + depth * CUT.depth);
    const cuts = tops.map((top, at) => {
        const from = CUT.left + 10 + at * (CUT.width + CUT.slope);
        return `L${from} ${top}h${CUT.width - CUT.slope}`;
    });
    return cuts.join("");
}

/** Draws the key of these ranges, given as low, high, low, high; nothing if there are none. */
function drawKey(svg, ranges) {
    const [lows, highs] = [0, 1].map((odd) => Array.from(ranges).filter((_, at) => at % 2 === odd));
    const end = CUT.left + 10 + lows.length * (CUT.width + CUT.slope);
    svg.setAttribute("viewBox", `0 0 ${CUT.left + 10 + 10 * (CUT.width + CUT.slope) + 20} 56`);
    svg.replaceChildren();
    if (lows.length === 0 || lows.length > 10) return;
    const tip = `L${end} ${CUT.top}L${end + 14} ${CUT.top + 18}L${end} ${CUT.bottom}`;
    const blade = (depths) => `M${CUT.left} ${CUT.top}${edge(depths)}${tip}H${CUT.left}z`;
    svg.append(
        shape("path", { d: BOW, class: "bow" }),
        shape("path", { d: blade(lows), class: "band" }),
        shape("path", { d: blade(highs), class: "blade" }),
    );
}

/** The cuts of a row that is a key, as ranges of one depth each. */
function cutsOf(row) {
    const cuts = /^[^ ]{1,12} ([0-9]{1,10})$/.exec(row)?.[1] ?? "";
    return Array.from(cuts).flatMap((digit) => [Number(digit), Number(digit)]);
}
