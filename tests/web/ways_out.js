// What the page's policy refuses of all that would reach something outside, or run another script.
const refused = [];
addEventListener("securitypolicyviolation", (event) => refused.push(event.effectiveDirective.replace("-elem", "")));
new Image().src = "https://example.invalid/x.png";
document.head.append(Object.assign(document.createElement("script"), { textContent: "document.title = 'broken'" }));
document.head.append(Object.assign(document.createElement("link"), { rel: "stylesheet", href: "https://example.invalid/x.css" }));
document.body.append(Object.assign(document.createElement("iframe"), { src: "https://example.invalid/" }));
const failed = await fetch("https://example.invalid/").then(() => "", (error) => error.name);
const WAYS = 5;
for (let turn = 0; turn < 1500 && new Set(refused).size < WAYS; turn++) await new Promise((done) => setTimeout(done, 20));
return { refused: [...new Set(refused)].sort(), failed, title: document.title };
