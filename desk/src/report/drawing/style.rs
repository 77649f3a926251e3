//! How the drawings look: on a screen, and on paper in colours or in grey.

pub const STYLE: &str = "\
svg{font-family:'Liberation Sans',Arial,Helvetica,sans-serif;background:#fff}\
svg path{fill:none;stroke:#222;stroke-width:.8}\
svg text{fill:#222;stroke:#fff;stroke-width:2.4px;stroke-linejoin:round;paint-order:stroke}\
svg .t{font-size:13px;font-weight:bold}svg .n{font-size:11px}svg .s{font-size:10px}\
svg .m{text-anchor:middle}svg .e{text-anchor:end}svg .y text{fill:#555}\
svg .grid{stroke:#ddd}svg .frame{stroke:#888}svg .joint{stroke:#bbb;stroke-width:.6}\
svg .axis{stroke:#1f5fa8;stroke-width:1.8}svg .polygon{stroke:#777;stroke-width:.7;stroke-dasharray:3 3}\
svg .left{stroke:#1f5fa8;stroke-width:2.4}svg .right{stroke:#111;stroke-width:1.1;stroke-dasharray:6 3}\
svg .bound{stroke:#b3261e;stroke-width:1.2}svg .shade{fill:#000;fill-opacity:.08;stroke:none}\
svg .rows{stroke-width:3.6;stroke-linecap:round}svg .joints{stroke-width:6.4;stroke-linecap:round}\
svg .bend{fill:#dbe6f3;stroke:#1f5fa8;stroke-width:1}\
svg .design{stroke:#1f5fa8;stroke-width:2}svg .blade{stroke:#c05a00;stroke-width:2;stroke-dasharray:10 3}\
svg .skipped{stroke:#b3261e;stroke-width:1.6;stroke-dasharray:3 3}svg .gap{stroke-width:2.6}\
svg path.mark{stroke:#b3261e;stroke-width:3.4}svg .mark text{fill:#b3261e;font-weight:bold}";
