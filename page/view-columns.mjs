// The widths of a long table's columns are measured when it is drawn, and then kept: each row is laid out by itself, and
// the browser leaves out those that are not in sight. Else one row that changes has it go over all five hundred.

/**
 * @param {HTMLElement} frame  The table scrolls in it. Its class `kept` has the style of rows with kept columns, `wide`
 *     that of a table that is wider than its frame.
 */
export function makeColumns(frame) {
    let measuredAt = 0;

    function measure() {
        const table = frame.querySelector('table');
        if (table === null || table.tHead === null || frame.clientWidth === 0) return;
        frame.classList.remove('kept');
        const isWide = table.offsetWidth > frame.clientWidth;
        const columns = [...table.tHead.rows[0].cells].map((cell) => {
            const width = cell.getBoundingClientRect().width.toFixed(2);
            return isWide ? `${width}px` : `minmax(0, ${width}fr)`;
        });
        table.style.setProperty('--columns', columns.join(' '));
        frame.classList.toggle('wide', isWide);
        frame.classList.add('kept');
        measuredAt = frame.clientWidth;
    }

    // In a frame of its own: what is measured has another size behind it.
    new ResizeObserver(() => requestAnimationFrame(() => {
        if (frame.clientWidth !== measuredAt) measure();
    })).observe(frame);

    return {
        measure,
        /** A row that has got more than its columns hold has all of them measured anew. */
        check(/** @type {HTMLElement | undefined} */ row) {
            const isTight = (/** @type {Element} */ cell) => cell.scrollWidth > cell.clientWidth + 1;
            if (row !== undefined && [...row.children].some(isTight)) measure();
        },
    };
}
