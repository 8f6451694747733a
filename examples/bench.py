rail, mv, status = "VDD", 743, "ok"
print("rail %s" % rail, f"{mv / 1000:.3f} V", sep=": ")  # the %s formats too; it is no field of an f-string, and not listed
print("VDD = 743 mV, code "
      f"{743 / 12.5:.0f}")
print(f"{rail:<8} {mv=} {status!r:>{2 + len(status)}}")
for at, mv, code in [(0, 743, 59)]:
    print(f"{at:>9,} us  VDD {mv:>5} mV  code {code:#06x}")
