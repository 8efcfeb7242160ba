/* The entries that tests/two_bus.c calls, doing nothing: each answers 0, whatever it is handed, and writes nowhere. */
#define SILENT(entry) unsigned jeturipe_##entry(void) { return 0; }

SILENT(words_of_bytes)
SILENT(bus_numbers_of_bytes)
SILENT(cmul)
SILENT(complex_inv)
SILENT(solve_linear)
SILENT(kron_new)
SILENT(eliminate_bus)
SILENT(eliminate_buses)
SILENT(thevenin_impedance)
SILENT(ward_compute)
SILENT(ward_compute_extended)
