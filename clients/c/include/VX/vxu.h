/*
 * OpenVX's functions in immediate mode, for the vision server Feqyldan. Each call runs a function.
 *
 * All images of a call have the same size. A pixel of an output is valid if it is valid in all
 * input images. Under VX_BORDER_UNDEFINED, which is the initial VX_CONTEXT_IMMEDIATE_BORDER, it is
 * valid if all of its window is. All other pixels become 0.
 *
 * Errors besides those that every function may return (vx.h):
 *
 *   VX_ERROR_INVALID_FORMAT     the formats of the images
 *   VX_ERROR_INVALID_DIMENSION  the sizes of the images
 *   VX_ERROR_INVALID_VALUE      a policy, scale, shift or threshold that isn't allowed
 *   VX_ERROR_INVALID_TYPE       a scalar or an array of the wrong type
 *   VX_ERROR_OPTIMIZED_AWAY     an image is virtual
 *   VX_ERROR_INVALID_GRAPH      an output is an input too
 *   VX_ERROR_MULTIPLE_WRITERS   two outputs are one object
 */
#ifndef VX_VXU_H
#define VX_VXU_H

#include <VX/vx.h>

#ifdef __cplusplus
extern "C" {
#endif

/* Bit by bit; U8 to U8. */
VX_API_ENTRY vx_status VX_API_CALL vxuAnd(vx_context context, vx_image in1, vx_image in2,
                                          vx_image out);
VX_API_ENTRY vx_status VX_API_CALL vxuOr(vx_context context, vx_image in1, vx_image in2,
                                         vx_image out);
VX_API_ENTRY vx_status VX_API_CALL vxuXor(vx_context context, vx_image in1, vx_image in2,
                                          vx_image out);
VX_API_ENTRY vx_status VX_API_CALL vxuNot(vx_context context, vx_image input, vx_image output);

/* The sum or the difference, narrowed by the policy. Each input is U8 or S16, and the output S16;
   or all three are U8. */
VX_API_ENTRY vx_status VX_API_CALL vxuAdd(vx_context context, vx_image in1, vx_image in2,
                                          vx_enum policy, vx_image out);
VX_API_ENTRY vx_status VX_API_CALL vxuSubtract(vx_context context, vx_image in1, vx_image in2,
                                               vx_enum policy, vx_image out);

/* in1 * in2 * scale, rounded toward zero and narrowed by the overflow policy. Formats as for
   vxuAdd. VX_ERROR_NOT_SUPPORTED: a scale of 0 or more that isn't 1 / 2^n with n from 0 to 15, or
   VX_ROUND_POLICY_TO_NEAREST_EVEN. */
VX_API_ENTRY vx_status VX_API_CALL vxuMultiply(vx_context context, vx_image in1, vx_image in2,
                                               vx_float32 scale, vx_enum overflow_policy,
                                               vx_enum rounding_policy, vx_image out);

/* All three images are U8, or all are S16. An S16 difference is at most 32767. */
VX_API_ENTRY vx_status VX_API_CALL vxuAbsDiff(vx_context context, vx_image in1, vx_image in2,
                                              vx_image out);
VX_API_ENTRY vx_status VX_API_CALL vxuMin(vx_context context, vx_image in1, vx_image in2,
                                          vx_image out);
VX_API_ENTRY vx_status VX_API_CALL vxuMax(vx_context context, vx_image in1, vx_image in2,
                                          vx_image out);

/* The threshold's input format to U8. */
VX_API_ENTRY vx_status VX_API_CALL vxuThreshold(vx_context context, vx_image input,
                                                vx_threshold thresh, vx_image output);

/* The table's entry for each sample. U8 to U8 or S16 to S16, by the table's type. */
VX_API_ENTRY vx_status VX_API_CALL vxuTableLookup(vx_context context, vx_image input, vx_lut lut,
                                                  vx_image output);

/* U8 to S16: shifts left. S16 to U8: shifts right, and narrows by the policy. The shift is 0 to 7.
   */
VX_API_ENTRY vx_status VX_API_CALL vxuConvertDepth(vx_context context, vx_image input,
                                                   vx_image output, vx_enum policy,
                                                   vx_int32 shift);

/* Windows of 3 by 3, U8 to U8. Means are rounded down. */
VX_API_ENTRY vx_status VX_API_CALL vxuBox3x3(vx_context context, vx_image input, vx_image output);
VX_API_ENTRY vx_status VX_API_CALL vxuGaussian3x3(vx_context context, vx_image input,
                                                  vx_image output);
VX_API_ENTRY vx_status VX_API_CALL vxuMedian3x3(vx_context context, vx_image input,
                                                vx_image output);
VX_API_ENTRY vx_status VX_API_CALL vxuErode3x3(vx_context context, vx_image input,
                                               vx_image output);
VX_API_ENTRY vx_status VX_API_CALL vxuDilate3x3(vx_context context, vx_image input,
                                                vx_image output);

/* Gradients, U8 to S16. One of the outputs may be NULL. */
VX_API_ENTRY vx_status VX_API_CALL vxuSobel3x3(vx_context context, vx_image input,
                                               vx_image output_x, vx_image output_y);

/* The sum of the window by the coefficients, divided by the scale, rounded toward zero and
   saturated. The first coefficient is for the window's last sample. U8 to U8 or S16. */
VX_API_ENTRY vx_status VX_API_CALL vxuConvolve(vx_context context, vx_image input,
                                               vx_convolution conv, vx_image output);

/* Counts the valid samples of a U8 image. All counts begin at 0. */
VX_API_ENTRY vx_status VX_API_CALL vxuHistogram(vx_context context, vx_image input,
                                                vx_distribution distribution);

/* Each sample is the sum of the input's in the rectangle from the first pixel to this one, modulo
   2^32. U8 to U32. */
VX_API_ENTRY vx_status VX_API_CALL vxuIntegralImage(vx_context context, vx_image input,
                                                    vx_image output);

/* The least and the greatest valid sample of a U8 or S16 image, in scalars of VX_TYPE_UINT8 or
   VX_TYPE_INT16, by the image's format. The last four may be NULL: arrays of VX_TYPE_COORDINATES2D,
   which get only the first location in row order, and counts of pixels, in scalars of
   VX_TYPE_UINT32 or VX_TYPE_SIZE. */
VX_API_ENTRY vx_status VX_API_CALL vxuMinMaxLoc(vx_context context, vx_image input,
                                                vx_scalar minVal, vx_scalar maxVal,
                                                vx_array minLoc, vx_array maxLoc,
                                                vx_scalar minCount, vx_scalar maxCount);

/* Adds each sample to the one in accum; a sum above 32767 is 32767. U8 to S16. The pixels of accum
   that stay valid are those that are valid in the input too. */
VX_API_ENTRY vx_status VX_API_CALL vxuAccumulateImage(vx_context context, vx_image input,
                                                      vx_image accum);

/* The same with the square of each sample, shifted right by a scalar of VX_TYPE_UINT32 from 0 to
   15. */
VX_API_ENTRY vx_status VX_API_CALL vxuAccumulateSquareImage(vx_context context, vx_image input,
                                                            vx_scalar shift, vx_image accum);

/*
 * Functions that the server doesn't have. Each adds a log entry and returns VX_ERROR_NOT_SUPPORTED.
 */

VX_API_ENTRY vx_status VX_API_CALL vxuColorConvert(vx_context context, vx_image input,
                                                   vx_image output);
VX_API_ENTRY vx_status VX_API_CALL vxuChannelExtract(vx_context context, vx_image input,
                                                     vx_enum channel, vx_image output);
VX_API_ENTRY vx_status VX_API_CALL vxuChannelCombine(vx_context context, vx_image plane0,
                                                     vx_image plane1, vx_image plane2,
                                                     vx_image plane3, vx_image output);
VX_API_ENTRY vx_status VX_API_CALL vxuPhase(vx_context context, vx_image grad_x, vx_image grad_y,
                                            vx_image orientation);
VX_API_ENTRY vx_status VX_API_CALL vxuMagnitude(vx_context context, vx_image grad_x,
                                                vx_image grad_y, vx_image mag);
VX_API_ENTRY vx_status VX_API_CALL vxuScaleImage(vx_context context, vx_image src, vx_image dst,
                                                 vx_enum type);
VX_API_ENTRY vx_status VX_API_CALL vxuEqualizeHist(vx_context context, vx_image input,
                                                   vx_image output);
VX_API_ENTRY vx_status VX_API_CALL vxuMeanStdDev(vx_context context, vx_image input,
                                                 vx_float32 *mean, vx_float32 *stddev);
VX_API_ENTRY vx_status VX_API_CALL vxuNonLinearFilter(vx_context context, vx_enum function,
                                                      vx_image input, vx_matrix mask,
                                                      vx_image output);
VX_API_ENTRY vx_status VX_API_CALL vxuGaussianPyramid(vx_context context, vx_image input,
                                                      vx_pyramid gaussian);
VX_API_ENTRY vx_status VX_API_CALL vxuLaplacianPyramid(vx_context context, vx_image input,
                                                       vx_pyramid laplacian, vx_image output);
VX_API_ENTRY vx_status VX_API_CALL vxuLaplacianReconstruct(vx_context context, vx_pyramid laplacian,
                                                           vx_image input, vx_image output);
VX_API_ENTRY vx_status VX_API_CALL vxuAccumulateWeightedImage(vx_context context, vx_image input,
                                                              vx_scalar alpha, vx_image accum);
VX_API_ENTRY vx_status VX_API_CALL vxuWeightedAverage(vx_context context, vx_image img1,
                                                      vx_scalar alpha, vx_image img2,
                                                      vx_image output);
VX_API_ENTRY vx_status VX_API_CALL vxuCannyEdgeDetector(vx_context context, vx_image input,
                                                        vx_threshold hyst, vx_int32 gradient_size,
                                                        vx_enum norm_type, vx_image output);
VX_API_ENTRY vx_status VX_API_CALL vxuWarpAffine(vx_context context, vx_image input,
                                                 vx_matrix matrix, vx_enum type, vx_image output);
VX_API_ENTRY vx_status VX_API_CALL vxuWarpPerspective(vx_context context, vx_image input,
                                                      vx_matrix matrix, vx_enum type,
                                                      vx_image output);
VX_API_ENTRY vx_status VX_API_CALL vxuHarrisCorners(vx_context context, vx_image input,
                                                    vx_scalar strength_thresh,
                                                    vx_scalar min_distance, vx_scalar sensitivity,
                                                    vx_int32 gradient_size, vx_int32 block_size,
                                                    vx_array corners, vx_scalar num_corners);
VX_API_ENTRY vx_status VX_API_CALL vxuFastCorners(vx_context context, vx_image input,
                                                  vx_scalar strength_thresh,
                                                  vx_bool nonmax_suppression, vx_array corners,
                                                  vx_scalar num_corners);
VX_API_ENTRY vx_status VX_API_CALL vxuOpticalFlowPyrLK(
    vx_context context, vx_pyramid old_images, vx_pyramid new_images, vx_array old_points,
    vx_array new_points_estimates, vx_array new_points, vx_enum termination, vx_scalar epsilon,
    vx_scalar num_iterations, vx_scalar use_initial_estimate, vx_size window_dimension);
VX_API_ENTRY vx_status VX_API_CALL vxuRemap(vx_context context, vx_image input, vx_remap table,
                                            vx_enum policy, vx_image output);
VX_API_ENTRY vx_status VX_API_CALL vxuHalfScaleGaussian(vx_context context, vx_image input,
                                                        vx_image output, vx_int32 kernel_size);
VX_API_ENTRY vx_status VX_API_CALL vxuMatchTemplate(vx_context context, vx_image src,
                                                    vx_image templateImage, vx_enum matchingMethod,
                                                    vx_image output);
VX_API_ENTRY vx_status VX_API_CALL vxuLBP(vx_context context, vx_image in, vx_enum format,
                                          vx_int8 kernel_size, vx_image out);
VX_API_ENTRY vx_status VX_API_CALL vxuHOGCells(vx_context context, vx_image input,
                                               vx_int32 cell_width, vx_int32 cell_height,
                                               vx_int32 num_bins, vx_tensor magnitudes,
                                               vx_tensor bins);
VX_API_ENTRY vx_status VX_API_CALL vxuHOGFeatures(vx_context context, vx_image input,
                                                  vx_tensor magnitudes, vx_tensor bins,
                                                  const vx_hog_t *params, vx_size hog_param_size,
                                                  vx_tensor features);
VX_API_ENTRY vx_status VX_API_CALL vxuHoughLinesP(vx_context context, vx_image input,
                                                  const vx_hough_lines_p_t *params,
                                                  vx_array lines_array, vx_scalar num_lines);
VX_API_ENTRY vx_status VX_API_CALL vxuBilateralFilter(vx_context context, vx_tensor src,
                                                      vx_int32 diameter, vx_float32 sigmaSpace,
                                                      vx_float32 sigmaValues, vx_tensor dst);
VX_API_ENTRY vx_status VX_API_CALL vxuTensorMultiply(vx_context context, vx_tensor input1,
                                                     vx_tensor input2, vx_scalar scale,
                                                     vx_enum overflow_policy,
                                                     vx_enum rounding_policy, vx_tensor output);
VX_API_ENTRY vx_status VX_API_CALL vxuTensorAdd(vx_context context, vx_tensor input1,
                                                vx_tensor input2, vx_enum policy, vx_tensor output);
VX_API_ENTRY vx_status VX_API_CALL vxuTensorSubtract(vx_context context, vx_tensor input1,
                                                     vx_tensor input2, vx_enum policy,
                                                     vx_tensor output);
VX_API_ENTRY vx_status VX_API_CALL vxuTensorTableLookup(vx_context context, vx_tensor input1,
                                                        vx_lut lut, vx_tensor output);
VX_API_ENTRY vx_status VX_API_CALL vxuTensorTranspose(vx_context context, vx_tensor input,
                                                      vx_tensor output, vx_size dimension1,
                                                      vx_size dimension2);
VX_API_ENTRY vx_status VX_API_CALL vxuTensorConvertDepth(vx_context context, vx_tensor input,
                                                         vx_enum policy, vx_scalar norm,
                                                         vx_scalar offset, vx_tensor output);
VX_API_ENTRY vx_status VX_API_CALL vxuTensorMatrixMultiply(
    vx_context context, vx_tensor input1, vx_tensor input2, vx_tensor input3,
    const vx_tensor_matrix_multiply_params_t *matrix_multiply_params, vx_tensor output);
VX_API_ENTRY vx_status VX_API_CALL vxuCopy(vx_context context, vx_reference input,
                                           vx_reference output);
VX_API_ENTRY vx_status VX_API_CALL vxuNonMaxSuppression(vx_context context, vx_image input,
                                                        vx_image mask, vx_int32 win_size,
                                                        vx_image output);

#ifdef __cplusplus
}
#endif

#endif
