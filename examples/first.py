import feqyldan as vx

pixels = [[(x * x + y * y) // 9 % 256 for x in range(-128, 128)] for y in range(-128, 128)]
with vx.Server() as server, server.context() as context:
    rings = context.image_from(pixels)
    wide = context.image_like(rings)
    outlines = context.image_like(rings)
    context.vxu.dilate3x3(rings, wide, border=vx.REPLICATE)
    context.vxu.absdiff(wide, rings, outlines)
    vx.write_png("outlines.png", outlines)
