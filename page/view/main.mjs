// The page: three tools, each a form and what it shows.
import { startDrops } from "./drops.mjs";
import { startTabs } from "./tabs.mjs";
import { startDeal } from "./deal.mjs";
import { startSettle } from "./settle.mjs";
import { startVerify } from "./verify.mjs";

startTabs();
startDrops();
startVerify(document.getElementById("verify"));
startSettle(document.getElementById("settle"));
startDeal(document.getElementById("deal"));
document.documentElement.dataset.ready = "";
