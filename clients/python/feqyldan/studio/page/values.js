// Values in a graph file. Each may be of any type of JSON: a file may have faults, and the page shows
// them.

export const textOf = value => typeof value === 'string' ? value : String(JSON.stringify(value))
export const numberOf = (value, otherwise) => Number.isFinite(value) ? value : otherwise

// Values by names of objects. Every other object of JavaScript has properties such as toString, which
// may be a name here.
export const byName = (values = {}) => Object.assign(Object.create(null), values)

// The lower and the upper limit of a threshold, or its only one.
export const limitsOf = ({ between, above }) => (Array.isArray(between) ? between : [above]).map(value => numberOf(value, NaN))

// The rows of a convolution; none if they aren't lists.
export const rowsOf = ({ rows }) => Array.isArray(rows) && rows.every(row => Array.isArray(row)) ? rows : []
