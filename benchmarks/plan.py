"""The recommended plan of each dimension, as the README gives it."""

PLANS = {
    2: "--rounds 1000 --tries 250 --heat 15 --relax 235 --depth 1 --room 16",
    3: "--rounds 2500 --tries 100 --heat 6 --relax 94 --depth 2 --room 16",
    4: "--rounds 500 --tries 500 --heat 30 --relax 470 --depth 1 --room 16",
    5: "--rounds 500 --tries 500 --heat 65 --relax 435 --depth 2 --room 1",
    6: "--rounds 500 --tries 500 --heat 100 --relax 400 --depth 3 --room 1",
}
