// Starts the tabs, and the parts in any order.

import { startArchive } from './archive_panel.js';
import { byId, el, on, refill, tell } from './dom.js';
import { startMap } from './map_panel.js';
import { startOrderClicks } from './order_clicks.js';
import { startOrders } from './orders_panel.js';
import { signIn, startReport } from './report_panel.js';
import { startJoin, startSignIn, takeFaction } from './sign_in.js';
import { lastFaction } from './store.js';
import { startUnits } from './units_panel.js';
import { loadWorld } from './world.js';

const TABS = ['join', 'units', 'orders', 'report', 'map'];

/** @param {string} name */
function showTab(name) {
  takeFaction();
  for (const tab of TABS) {
    byId(`tab-${tab}`).setAttribute('aria-selected', String(tab === name));
    byId(`tab-${tab}`).tabIndex = tab === name ? 0 : -1;
    byId(`panel-${tab}`).hidden = tab !== name;
  }
  history.replaceState(null, '', `#${name}`);
  tell('tab');
}

// Shows a part that the player did not choose by its tab, and takes the focus along.
/** @param {string} name */
function goTo(name) {
  showTab(name);
  byId(`panel-${name}`).querySelector('h2')?.focus();
}

function startTabs() {
  refill('tabs', TABS.map((name) => el('button', { role: 'tab', id: `tab-${name}`, 'aria-controls': `panel-${name}` },
    name[0].toUpperCase() + name.slice(1))));
  TABS.forEach((name, index) => {
    on(`tab-${name}`, 'click', () => showTab(name));
    on(`tab-${name}`, 'keydown', (event) => {
      const step = event.key === 'ArrowLeft' ? -1 : event.key === 'ArrowRight' ? 1 : 0;
      if (step === 0) return;
      event.preventDefault();
      const next = TABS[(index + step + TABS.length) % TABS.length];
      showTab(next);
      byId(`tab-${next}`).focus();
    });
  });
  on(document, 'go', ({ detail }) => goTo(detail));
  const asked = location.hash.slice(1);
  showTab(TABS.includes(asked) ? asked : lastFaction() ? 'units' : 'join');
}

startSignIn(signIn);
startOrders();
startReport();
startMap();
startArchive();
startUnits();
startOrderClicks();
startJoin();
startTabs();
byId('not-started').remove();
loadWorld();
