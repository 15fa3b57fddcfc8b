/* The table of the functions. Nothing else in the library lists them.
 *
 * FUNCTIONS(F) is F(NUMBER, Name, kernel, name, PARAMETERS, FORMATS) for each function: its number
 * in frames; the name in vx<Name>Node and vxu<Name>; the standard's kernel, by its number and by
 * its name; its parameters, and the formats of its images.
 *
 * PARAMETERS(P) is P(PLACE, KIND, direction, state, name) for each parameter in the node's order:
 * the place of its operand or its policy in a struct call; an object's type, or ENUM for a policy,
 * FLOAT or INT for a number that a node has in a scalar and vxu<Name> takes by value; the rest as
 * vxQueryParameter gives it.
 */
#ifndef FEQYLDAN_FUNCTIONS_H
#define FEQYLDAN_FUNCTIONS_H

#define P_IN(P, PLACE, KIND, name) P(PLACE, KIND, VX_INPUT, VX_PARAMETER_STATE_REQUIRED, name)
#define P_OUT(P, PLACE, KIND, name) P(PLACE, KIND, VX_OUTPUT, VX_PARAMETER_STATE_REQUIRED, name)
#define P_MAY(P, PLACE, KIND, name) P(PLACE, KIND, VX_OUTPUT, VX_PARAMETER_STATE_OPTIONAL, name)
#define P_SUM(P, name) P(OUT1, IMAGE, VX_BIDIRECTIONAL, VX_PARAMETER_STATE_REQUIRED, name)

#define OF_ONE(P) P_IN(P, IN1, IMAGE, input) P_OUT(P, OUT1, IMAGE, output)
#define PAIR(P) P_IN(P, IN1, IMAGE, in1) P_IN(P, IN2, IMAGE, in2)
#define OF_TWO(P) PAIR(P) P_OUT(P, OUT1, IMAGE, out)
#define BY_POLICY(P) PAIR(P) P_IN(P, POLICY, ENUM, policy) P_OUT(P, OUT1, IMAGE, out)
#define SCALED(P)                                                                                  \
    PAIR(P) P_IN(P, AMOUNT, FLOAT, scale) P_IN(P, POLICY, ENUM, overflow_policy)                   \
        P_IN(P, ROUNDING, ENUM, rounding_policy) P_OUT(P, OUT1, IMAGE, out)
#define COMPARED(P)                                                                                \
    P_IN(P, IN1, IMAGE, input) P_IN(P, IN2, THRESHOLD, thresh) P_OUT(P, OUT1, IMAGE, output)
#define LOOKED_UP(P)                                                                               \
    P_IN(P, IN1, IMAGE, input) P_IN(P, IN2, LUT, lut) P_OUT(P, OUT1, IMAGE, output)
#define SHIFTED(P) OF_ONE(P) P_IN(P, POLICY, ENUM, policy) P_IN(P, AMOUNT, INT, shift)
#define GRADIENTS(P)                                                                               \
    P_IN(P, IN1, IMAGE, input) P_MAY(P, OUT1, IMAGE, output_x) P_MAY(P, OUT2, IMAGE, output_y)
#define CONVOLVED(P)                                                                               \
    P_IN(P, IN1, IMAGE, input) P_IN(P, IN2, CONVOLUTION, conv) P_OUT(P, OUT1, IMAGE, output)
#define COUNTED(P) P_IN(P, IN1, IMAGE, input) P_OUT(P, OUT1, DISTRIBUTION, distribution)
#define EXTREMES(P)                                                                                \
    P_IN(P, IN1, IMAGE, input) P_OUT(P, MIN_VALUE, SCALAR, minVal)                                 \
        P_OUT(P, MAX_VALUE, SCALAR, maxVal) P_MAY(P, MIN_PLACE, ARRAY, minLoc)                     \
            P_MAY(P, MAX_PLACE, ARRAY, maxLoc) P_MAY(P, MIN_COUNT, SCALAR, minCount)               \
                P_MAY(P, MAX_COUNT, SCALAR, maxCount)
#define SUMMED(P) P_IN(P, IN1, IMAGE, input) P_SUM(P, accum)
#define SUMMED_SQUARES(P)                                                                          \
    P_IN(P, IN1, IMAGE, input) P_IN(P, AMOUNT, SCALAR, shift) P_SUM(P, accum)

/* Formats: in words, and as one or two rows of sets for in1, in2 and the output. An output whose
   format is open gets the one of the first row that has in1's format. */
#define U8_U8 "U8 to U8", {{U8, 0, U8}}
#define U8_S16 "U8 to S16", {{U8, 0, S16}}
#define U8_U32 "U8 to U32", {{U8, 0, U32}}
#define U8_ANY "U8 to U8 or S16", {{U8, 0, S16}, {U8, 0, U8}}
#define U8_NONE "U8", {{U8, 0, 0}}
#define ANY_NONE "U8 or S16", {{U8 | S16, 0, 0}}
#define PAIR_U8 "U8 and U8 to U8", {{U8, U8, U8}}
#define PAIR_ANY                                                                                   \
    "each U8 or S16 to S16, or U8 and U8 to U8", {{U8 | S16, U8 | S16, S16}, {U8, U8, U8}}
#define PAIR_SAME "U8 and U8 to U8, or S16 and S16 to S16", {{U8, U8, U8}, {S16, S16, S16}}
#define AS_THRESHOLD "the threshold's input format to U8", {{U8, U8, U8}, {S16, S16, U8}}
#define AS_LUT "U8 to U8 by VX_TYPE_UINT8, or S16 to S16 by VX_TYPE_INT16",                        \
               {{U8, U8, U8}, {S16, S16, S16}}
#define DEPTHS "U8 to S16, or S16 to U8", {{U8, 0, S16}, {S16, 0, U8}}

#define FUNCTIONS(F)                                                                               \
    F(AND_BITS, And, AND, "and", OF_TWO, PAIR_U8)                                                  \
    F(OR_BITS, Or, OR, "or", OF_TWO, PAIR_U8)                                                      \
    F(XOR_BITS, Xor, XOR, "xor", OF_TWO, PAIR_U8)                                                  \
    F(NOT_BITS, Not, NOT, "not", OF_ONE, U8_U8)                                                    \
    F(ADD, Add, ADD, "add", BY_POLICY, PAIR_ANY)                                                   \
    F(SUBTRACT, Subtract, SUBTRACT, "subtract", BY_POLICY, PAIR_ANY)                               \
    F(MULTIPLY, Multiply, MULTIPLY, "multiply", SCALED, PAIR_ANY)                                  \
    F(ABSOLUTE_DIFFERENCE, AbsDiff, ABSDIFF, "absdiff", OF_TWO, PAIR_SAME)                         \
    F(MIN_PIXEL, Min, MIN, "min", OF_TWO, PAIR_SAME)                                               \
    F(MAX_PIXEL, Max, MAX, "max", OF_TWO, PAIR_SAME)                                               \
    F(THRESHOLD, Threshold, THRESHOLD, "threshold", COMPARED, AS_THRESHOLD)                        \
    F(TABLE_LOOKUP, TableLookup, TABLE_LOOKUP, "table_lookup", LOOKED_UP, AS_LUT)                  \
    F(CONVERT_DEPTH, ConvertDepth, CONVERTDEPTH, "convertdepth", SHIFTED, DEPTHS)                  \
    F(BOX, Box3x3, BOX_3x3, "box_3x3", OF_ONE, U8_U8)                                              \
    F(GAUSSIAN, Gaussian3x3, GAUSSIAN_3x3, "gaussian_3x3", OF_ONE, U8_U8)                          \
    F(MEDIAN, Median3x3, MEDIAN_3x3, "median_3x3", OF_ONE, U8_U8)                                  \
    F(ERODE, Erode3x3, ERODE_3x3, "erode_3x3", OF_ONE, U8_U8)                                      \
    F(DILATE, Dilate3x3, DILATE_3x3, "dilate_3x3", OF_ONE, U8_U8)                                  \
    F(SOBEL, Sobel3x3, SOBEL_3x3, "sobel_3x3", GRADIENTS, U8_S16)                                  \
    F(CONVOLVE, Convolve, CUSTOM_CONVOLUTION, "custom_convolution", CONVOLVED, U8_ANY)             \
    F(HISTOGRAM, Histogram, HISTOGRAM, "histogram", COUNTED, U8_NONE)                              \
    F(INTEGRAL, IntegralImage, INTEGRAL_IMAGE, "integral_image", OF_ONE, U8_U32)                   \
    F(MIN_MAX_LOCATION, MinMaxLoc, MINMAXLOC, "minmaxloc", EXTREMES, ANY_NONE)                     \
    F(ACCUMULATE, AccumulateImage, ACCUMULATE, "accumulate", SUMMED, U8_S16)                       \
    F(ACCUMULATE_SQUARE, AccumulateSquareImage, ACCUMULATE_SQUARE, "accumulate_square",            \
      SUMMED_SQUARES, U8_S16)

#endif
