// The tabs: which view is open, where an arrow key leads, and how many things a view has.

import { find } from './dom.mjs';

export function showTab(name) {
  document.body.dataset.tab = name;
  for (const tab of find('tabs').children) {
    tab.setAttribute('aria-selected', String(tab.dataset.tab === name));
    tab.tabIndex = tab.dataset.tab === name ? 0 : -1;
  }
}

// The name of the tab to which an arrow key leads, which takes the focus; nothing for other keys.
export function tabBeside(event) {
  const step = { ArrowRight: 1, ArrowLeft: -1 }[event.key];
  if (!step) return null;
  const tabs = [...find('tabs').children].filter((tab) => tab.offsetParent !== null);
  const next = tabs[(tabs.indexOf(event.target) + step + tabs.length) % tabs.length];
  next.focus();
  return next.dataset.tab;
}

export function count(name, number) {
  find(`tab-${name}`).querySelector('.count').replaceChildren(number === null ? '' : number.toLocaleString('en'));
}
