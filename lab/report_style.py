"""How a report looks, on a screen and on paper. Fixed text: nothing from outside stands here."""

# What a file must begin with to be written over: it is a report.
MARK = "<!DOCTYPE html>\n<!-- a report of bin/report -->\n"

HEAD = MARK + """<html lang="en">
<head>
<meta charset="utf-8">
<meta name="viewport" content="width=device-width">
<meta name="color-scheme" content="light">
<meta http-equiv="Content-Security-Policy" content="default-src 'none'; style-src 'unsafe-inline'">
"""

STYLE = """
:root{--ink:#1b2530;--soft:#5a6672;--line:#d9dfe5;--pass:#dcebe2;--fail:#a3180f;--inc:#a86f00;--unr:#4b3d8f}
*{box-sizing:border-box}
body{font:15px/1.45 "DejaVu Sans",Verdana,"Segoe UI",sans-serif;color:var(--ink);background:#fff}
body{max-width:1080px;margin:0 auto;padding:28px}
h1{font-size:26px;margin:0 0 2px}
h2{font-size:18px;margin:34px 0 10px}
p{margin:0}
small{color:var(--soft);font-size:12px;font-weight:400}
.sub,.legend,.more{color:var(--soft)}
.patterns{position:absolute}
.cards{display:grid;grid-template-columns:repeat(4,1fr);gap:14px;margin:18px 0 14px}
.card{position:relative;border:1px solid var(--line);border-radius:6px;padding:12px 14px 12px 52px}
.card b{display:block;font-size:28px;line-height:1.15;font-variant-numeric:tabular-nums}
.card span{font-weight:600}
.card p{font-size:12px;color:var(--soft);margin-top:4px}
.card .swatch{position:absolute;left:14px;top:17px;width:24px;height:24px}
.swatch{width:13px;height:13px;vertical-align:-2px;margin-right:6px;border:1px solid #0004}
.bar{width:100%;height:16px;display:block;border:1px solid #0004;border-radius:4px}
.PASS{fill:var(--pass)}.FAIL{fill:var(--fail)}.INCONCLUSIVE{fill:var(--inc)}.UNREADABLE{fill:var(--unr)}
.ground{fill:#edf4f0}
.over{fill:none}.over.INCONCLUSIVE{fill:url(#stripes)}.over.UNREADABLE{fill:url(#dots)}
.box{border:1px solid var(--inc);border-left-width:6px;background:#fff8ea;padding:10px 14px;margin:14px 0;border-radius:3px}
.box.strong{border-color:var(--fail);background:#fdf1f0}
.box.plain{border-color:var(--soft);background:#f7f9fa}
.box ul{margin:0;padding-left:18px}
.legend{font-size:13px;margin:0 0 8px}.legend span{margin-right:18px;white-space:nowrap}
table{border-collapse:collapse;width:100%}
.terminals{border:1px solid var(--line)}
.terminals th,.terminals td{border-top:1px solid var(--line);padding:5px 8px;text-align:left;vertical-align:middle}
.terminals thead th{font-size:12px;color:var(--soft)}
.terminals tbody th{font-weight:400;width:150px;max-width:190px;overflow-wrap:anywhere}
.terminals tbody th small{display:block;color:var(--fail);font-weight:600}
.terminals .n{text-align:right;white-space:nowrap;font-variant-numeric:tabular-nums;width:1px}
td.FAIL,td.INCONCLUSIVE,td.UNREADABLE{font-weight:700}
td.none{color:#a9b3bc}
.lanes{display:flex;height:36px}
.lanes span{font:700 9px/10px "DejaVu Sans",Verdana,sans-serif;color:var(--soft);width:13px;padding-top:3px}
.strip{display:block;width:100%;height:36px;flex:1;min-width:0}
details.group{border:1px solid var(--line);border-left-width:6px;border-radius:3px;margin:6px 0}
details.group.FAIL{border-left-color:var(--fail)}
details.group.INCONCLUSIVE{border-left:6px dashed var(--inc)}
details.group.UNREADABLE{border-left:6px dotted var(--unr)}
summary{cursor:pointer;padding:7px 10px}
details.group summary small{display:block;padding-left:3.6em}
summary b{display:inline-block;min-width:2.2em;font-variant-numeric:tabular-nums}
details.group ul{list-style:none;margin:0;padding:0 12px 8px}
details.group li{border-top:1px solid var(--line);padding:6px 0;overflow-wrap:anywhere}
details.group .more{padding:0 12px 10px}
li div{display:flex;gap:8px;font-size:12.5px}
li i{flex:0 0 82px;color:var(--soft);font-style:normal}
code{font:12.5px/1.5 "DejaVu Sans Mono",Consolas,monospace;white-space:pre-wrap;overflow-wrap:anywhere}
code.whole{display:block;margin-top:4px;font-size:12px;line-height:1.4}
code.whole b{color:var(--fail)}
mark{background:#ffe39a;font-weight:700;text-decoration:underline;color:inherit}
.foot th{font-weight:400;color:var(--soft);text-align:left;vertical-align:top;padding:3px 16px 3px 0;white-space:nowrap}
.foot td{padding:3px 0;overflow-wrap:anywhere;font-size:13px}
@page{margin:14mm}
@media print{
body{font-size:10.5px;max-width:none;padding:0;print-color-adjust:exact;-webkit-print-color-adjust:exact}
h1{font-size:20px}h2{font-size:14px;margin:18px 0 6px;break-after:avoid}
.card{padding:8px 8px 8px 40px;break-inside:avoid}.card b{font-size:20px}.card .swatch{left:8px;top:12px}
.card p,small,.legend,.foot td{font-size:9px}
tr,.box,summary,li{break-inside:avoid}
thead{display:table-header-group}
code,li div{font-size:9px}
}
"""
