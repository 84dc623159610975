"""The best known makespans of published instances, as the literature has them."""

import taillard

KNOWN = {
    **{"ft06": 55, "ft10": 930, "ft20": 1165},
    **{"abz5": 1234, "abz6": 943},
    **dict(zip([f"la{n:02}" for n in range(1, 21)], [
        666, 655, 597, 590, 593, 926, 890, 863, 951, 958,
        1222, 1039, 1150, 1292, 1207, 945, 784, 848, 842, 902,
    ])),
    **dict(zip([f"la{n}" for n in range(21, 41)], [
        1046, 927, 1032, 935, 977, 1218, 1235, 1216, 1152, 1355,
        1784, 1850, 1719, 1721, 1888, 1268, 1397, 1196, 1233, 1222,
    ])),
    **dict(zip([f"orb{n:02}" for n in range(1, 11)], [1059, 888, 1005, 1005, 887, 1010, 397, 899, 934, 944])),
    **{f"ta{n:02}": best for n, (_, _, best) in enumerate(taillard.SEEDS, 1)},
}
