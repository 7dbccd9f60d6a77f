// Tabs, by hand and by keyboard: the arrow keys go from tab to tab, and a second press closes what a tab has opened.

/**
 * @param {HTMLElement} list  Its buttons are the tabs; each names its panel by aria-controls.
 * @param {() => void} opened  Is told when another panel is seen.
 */
export function makeTabs(list, opened) {
    const tabs = /** @type {HTMLButtonElement[]} */ ([...list.querySelectorAll('[role="tab"]')]);
    const panelOf = (/** @type {HTMLElement} */ tab) => (
        /** @type {HTMLElement} */ (document.getElementById(tab.getAttribute('aria-controls') ?? '')));
    const isOpen = (/** @type {HTMLElement} */ tab) => tab.getAttribute('aria-selected') === 'true';

    function show(/** @type {HTMLElement | null} */ chosen) {
        for (const tab of tabs) {
            tab.setAttribute('aria-selected', String(tab === chosen));
            tab.tabIndex = tab === (chosen ?? tabs[0]) ? 0 : -1;
            panelOf(tab).hidden = tab !== chosen;
        }
        opened();
    }

    for (const tab of tabs) tab.addEventListener('click', () => show(isOpen(tab) ? null : tab));
    list.addEventListener('keydown', (event) => {
        const at = tabs.indexOf(/** @type {HTMLButtonElement} */ (document.activeElement));
        const last = tabs.length - 1;
        /** @type {Record<string, number>} */
        const goes = { ArrowRight: at === last ? 0 : at + 1, ArrowLeft: at === 0 ? last : at - 1, Home: 0, End: last };
        const next = tabs[goes[event.key]];
        if (at < 0 || next === undefined) return;
        event.preventDefault();
        next.focus();
        show(next);
    });
    show(null);
    return {
        open: (/** @type {string} */ id) => show(tabs.find((tab) => tab.id === id) ?? null),
        close: () => show(null),
    };
}
