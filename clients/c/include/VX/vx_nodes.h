/* The functions of OpenVX as nodes of graphs. */
#ifndef VX_VX_NODES_H
#define VX_VX_NODES_H

#include <VX/vx_types.h>

#ifdef __cplusplus
extern "C" {
#endif

/*
 * ---- Nodes ----
 *
 * Each call adds a node to a graph; VX/vxu.h says what the functions compute. vxGetStatus of the
 * node gives these errors:
 *
 *   VX_ERROR_INVALID_SCOPE  an image is a virtual image of another graph
 *   VX_ERROR_INVALID_VALUE  not a policy
 *   VX_ERROR_INVALID_TYPE   a scalar or an array of the wrong type
 *   VX_ERROR_NOT_SUPPORTED  VX_ROUND_POLICY_TO_NEAREST_EVEN
 *
 * A log entry says more, and vxVerifyGraph then returns VX_ERROR_INVALID_NODE. vxVerifyGraph checks
 * the formats and sizes of the images.
 */

VX_API_ENTRY vx_node VX_API_CALL vxAndNode(vx_graph graph, vx_image in1, vx_image in2,
                                           vx_image out);
VX_API_ENTRY vx_node VX_API_CALL vxOrNode(vx_graph graph, vx_image in1, vx_image in2,
                                          vx_image out);
VX_API_ENTRY vx_node VX_API_CALL vxXorNode(vx_graph graph, vx_image in1, vx_image in2,
                                           vx_image out);
VX_API_ENTRY vx_node VX_API_CALL vxNotNode(vx_graph graph, vx_image input, vx_image output);
VX_API_ENTRY vx_node VX_API_CALL vxAddNode(vx_graph graph, vx_image in1, vx_image in2,
                                           vx_enum policy, vx_image out);
VX_API_ENTRY vx_node VX_API_CALL vxSubtractNode(vx_graph graph, vx_image in1, vx_image in2,
                                                vx_enum policy, vx_image out);

/* The scale is a scalar of VX_TYPE_FLOAT32, read when the graph is verified or run. */
VX_API_ENTRY vx_node VX_API_CALL vxMultiplyNode(vx_graph graph, vx_image in1, vx_image in2,
                                                vx_scalar scale, vx_enum overflow_policy,
                                                vx_enum rounding_policy, vx_image out);
VX_API_ENTRY vx_node VX_API_CALL vxAbsDiffNode(vx_graph graph, vx_image in1, vx_image in2,
                                               vx_image out);
VX_API_ENTRY vx_node VX_API_CALL vxMinNode(vx_graph graph, vx_image in1, vx_image in2,
                                           vx_image out);
VX_API_ENTRY vx_node VX_API_CALL vxMaxNode(vx_graph graph, vx_image in1, vx_image in2,
                                           vx_image out);
VX_API_ENTRY vx_node VX_API_CALL vxThresholdNode(vx_graph graph, vx_image input,
                                                 vx_threshold thresh, vx_image output);
VX_API_ENTRY vx_node VX_API_CALL vxTableLookupNode(vx_graph graph, vx_image input, vx_lut lut,
                                                   vx_image output);

/* The shift is a scalar of VX_TYPE_INT32, read when the graph is verified or run. */
VX_API_ENTRY vx_node VX_API_CALL vxConvertDepthNode(vx_graph graph, vx_image input,
                                                    vx_image output, vx_enum policy,
                                                    vx_scalar shift);
VX_API_ENTRY vx_node VX_API_CALL vxBox3x3Node(vx_graph graph, vx_image input, vx_image output);
VX_API_ENTRY vx_node VX_API_CALL vxGaussian3x3Node(vx_graph graph, vx_image input,
                                                   vx_image output);
VX_API_ENTRY vx_node VX_API_CALL vxMedian3x3Node(vx_graph graph, vx_image input, vx_image output);
VX_API_ENTRY vx_node VX_API_CALL vxErode3x3Node(vx_graph graph, vx_image input, vx_image output);
VX_API_ENTRY vx_node VX_API_CALL vxDilate3x3Node(vx_graph graph, vx_image input, vx_image output);

/* One of the outputs may be NULL. */
VX_API_ENTRY vx_node VX_API_CALL vxSobel3x3Node(vx_graph graph, vx_image input, vx_image output_x,
                                                vx_image output_y);
VX_API_ENTRY vx_node VX_API_CALL vxConvolveNode(vx_graph graph, vx_image input,
                                                vx_convolution conv, vx_image output);
VX_API_ENTRY vx_node VX_API_CALL vxHistogramNode(vx_graph graph, vx_image input,
                                                 vx_distribution distribution);
VX_API_ENTRY vx_node VX_API_CALL vxIntegralImageNode(vx_graph graph, vx_image input,
                                                     vx_image output);

/* The outputs are written after each run. The last four may be NULL. */
VX_API_ENTRY vx_node VX_API_CALL vxMinMaxLocNode(vx_graph graph, vx_image input, vx_scalar minVal,
                                                 vx_scalar maxVal, vx_array minLoc,
                                                 vx_array maxLoc, vx_scalar minCount,
                                                 vx_scalar maxCount);

/* Each run adds once to the samples that accum had before it; nodes that read accum read the sums.
   If accum is virtual, vxVerifyGraph returns VX_ERROR_INVALID_LINK. The shift is a scalar of
   VX_TYPE_UINT32, read when the graph is verified or run. */
VX_API_ENTRY vx_node VX_API_CALL vxAccumulateImageNode(vx_graph graph, vx_image input,
                                                       vx_image accum);
VX_API_ENTRY vx_node VX_API_CALL vxAccumulateSquareImageNode(vx_graph graph, vx_image input,
                                                             vx_scalar shift, vx_image accum);

/*
 * Nodes of functions that the server doesn't have. Each call adds a log entry and returns an object
 * with the status VX_ERROR_NOT_SUPPORTED; vxVerifyGraph then returns VX_ERROR_INVALID_NODE.
 */

VX_API_ENTRY vx_node VX_API_CALL vxColorConvertNode(vx_graph graph, vx_image input,
                                                    vx_image output);
VX_API_ENTRY vx_node VX_API_CALL vxChannelExtractNode(vx_graph graph, vx_image input,
                                                      vx_enum channel, vx_image output);
VX_API_ENTRY vx_node VX_API_CALL vxChannelCombineNode(vx_graph graph, vx_image plane0,
                                                      vx_image plane1, vx_image plane2,
                                                      vx_image plane3, vx_image output);
VX_API_ENTRY vx_node VX_API_CALL vxPhaseNode(vx_graph graph, vx_image grad_x, vx_image grad_y,
                                             vx_image orientation);
VX_API_ENTRY vx_node VX_API_CALL vxMagnitudeNode(vx_graph graph, vx_image grad_x, vx_image grad_y,
                                                 vx_image mag);
VX_API_ENTRY vx_node VX_API_CALL vxScaleImageNode(vx_graph graph, vx_image src, vx_image dst,
                                                  vx_enum type);
VX_API_ENTRY vx_node VX_API_CALL vxEqualizeHistNode(vx_graph graph, vx_image input,
                                                    vx_image output);
VX_API_ENTRY vx_node VX_API_CALL vxMeanStdDevNode(vx_graph graph, vx_image input, vx_scalar mean,
                                                  vx_scalar stddev);
VX_API_ENTRY vx_node VX_API_CALL vxNonLinearFilterNode(vx_graph graph, vx_enum function,
                                                       vx_image input, vx_matrix mask,
                                                       vx_image output);
VX_API_ENTRY vx_node VX_API_CALL vxGaussianPyramidNode(vx_graph graph, vx_image input,
                                                       vx_pyramid gaussian);
VX_API_ENTRY vx_node VX_API_CALL vxLaplacianPyramidNode(vx_graph graph, vx_image input,
                                                        vx_pyramid laplacian, vx_image output);
VX_API_ENTRY vx_node VX_API_CALL vxLaplacianReconstructNode(vx_graph graph, vx_pyramid laplacian,
                                                            vx_image input, vx_image output);
VX_API_ENTRY vx_node VX_API_CALL vxAccumulateWeightedImageNode(vx_graph graph, vx_image input,
                                                               vx_scalar alpha, vx_image accum);
VX_API_ENTRY vx_node VX_API_CALL vxWeightedAverageNode(vx_graph graph, vx_image img1,
                                                       vx_scalar alpha, vx_image img2,
                                                       vx_image output);
VX_API_ENTRY vx_node VX_API_CALL vxCannyEdgeDetectorNode(vx_graph graph, vx_image input,
                                                         vx_threshold hyst, vx_int32 gradient_size,
                                                         vx_enum norm_type, vx_image output);
VX_API_ENTRY vx_node VX_API_CALL vxWarpAffineNode(vx_graph graph, vx_image input, vx_matrix matrix,
                                                  vx_enum type, vx_image output);
VX_API_ENTRY vx_node VX_API_CALL vxWarpPerspectiveNode(vx_graph graph, vx_image input,
                                                       vx_matrix matrix, vx_enum type,
                                                       vx_image output);
VX_API_ENTRY vx_node VX_API_CALL vxHarrisCornersNode(vx_graph graph, vx_image input,
                                                     vx_scalar strength_thresh,
                                                     vx_scalar min_distance, vx_scalar sensitivity,
                                                     vx_int32 gradient_size, vx_int32 block_size,
                                                     vx_array corners, vx_scalar num_corners);
VX_API_ENTRY vx_node VX_API_CALL vxFastCornersNode(vx_graph graph, vx_image input,
                                                   vx_scalar strength_thresh,
                                                   vx_bool nonmax_suppression, vx_array corners,
                                                   vx_scalar num_corners);
VX_API_ENTRY vx_node VX_API_CALL vxOpticalFlowPyrLKNode(
    vx_graph graph, vx_pyramid old_images, vx_pyramid new_images, vx_array old_points,
    vx_array new_points_estimates, vx_array new_points, vx_enum termination, vx_scalar epsilon,
    vx_scalar num_iterations, vx_scalar use_initial_estimate, vx_size window_dimension);
VX_API_ENTRY vx_node VX_API_CALL vxRemapNode(vx_graph graph, vx_image input, vx_remap table,
                                             vx_enum policy, vx_image output);
VX_API_ENTRY vx_node VX_API_CALL vxHalfScaleGaussianNode(vx_graph graph, vx_image input,
                                                         vx_image output, vx_int32 kernel_size);
VX_API_ENTRY vx_node VX_API_CALL vxMatchTemplateNode(vx_graph graph, vx_image src,
                                                     vx_image templateImage, vx_enum matchingMethod,
                                                     vx_image output);
VX_API_ENTRY vx_node VX_API_CALL vxLBPNode(vx_graph graph, vx_image in, vx_enum format,
                                           vx_int8 kernel_size, vx_image out);
VX_API_ENTRY vx_node VX_API_CALL vxHOGCellsNode(vx_graph graph, vx_image input, vx_int32 cell_width,
                                                vx_int32 cell_height, vx_int32 num_bins,
                                                vx_tensor magnitudes, vx_tensor bins);
VX_API_ENTRY vx_node VX_API_CALL vxHOGFeaturesNode(vx_graph graph, vx_image input,
                                                   vx_tensor magnitudes, vx_tensor bins,
                                                   const vx_hog_t *params, vx_size hog_param_size,
                                                   vx_tensor features);
VX_API_ENTRY vx_node VX_API_CALL vxHoughLinesPNode(vx_graph graph, vx_image input,
                                                   const vx_hough_lines_p_t *params,
                                                   vx_array lines_array, vx_scalar num_lines);
VX_API_ENTRY vx_node VX_API_CALL vxBilateralFilterNode(vx_graph graph, vx_tensor src,
                                                       vx_int32 diameter, vx_float32 sigmaSpace,
                                                       vx_float32 sigmaValues, vx_tensor dst);
VX_API_ENTRY vx_node VX_API_CALL vxTensorMultiplyNode(vx_graph graph, vx_tensor input1,
                                                      vx_tensor input2, vx_scalar scale,
                                                      vx_enum overflow_policy,
                                                      vx_enum rounding_policy, vx_tensor output);
VX_API_ENTRY vx_node VX_API_CALL vxTensorAddNode(vx_graph graph, vx_tensor input1, vx_tensor input2,
                                                 vx_enum policy, vx_tensor output);
VX_API_ENTRY vx_node VX_API_CALL vxTensorSubtractNode(vx_graph graph, vx_tensor input1,
                                                      vx_tensor input2, vx_enum policy,
                                                      vx_tensor output);
VX_API_ENTRY vx_node VX_API_CALL vxTensorTableLookupNode(vx_graph graph, vx_tensor input1,
                                                         vx_lut lut, vx_tensor output);
VX_API_ENTRY vx_node VX_API_CALL vxTensorTransposeNode(vx_graph graph, vx_tensor input,
                                                       vx_tensor output, vx_size dimension1,
                                                       vx_size dimension2);
VX_API_ENTRY vx_node VX_API_CALL vxTensorConvertDepthNode(vx_graph graph, vx_tensor input,
                                                          vx_enum policy, vx_scalar norm,
                                                          vx_scalar offset, vx_tensor output);
VX_API_ENTRY vx_node VX_API_CALL vxTensorMatrixMultiplyNode(
    vx_graph graph, vx_tensor input1, vx_tensor input2, vx_tensor input3,
    const vx_tensor_matrix_multiply_params_t *matrix_multiply_params, vx_tensor output);
VX_API_ENTRY vx_node VX_API_CALL vxCopyNode(vx_graph graph, vx_reference input,
                                            vx_reference output);
VX_API_ENTRY vx_node VX_API_CALL vxSelectNode(vx_graph graph, vx_scalar condition,
                                              vx_reference true_value, vx_reference false_value,
                                              vx_reference output);
VX_API_ENTRY vx_node VX_API_CALL vxScalarOperationNode(vx_graph graph, vx_enum scalar_operation,
                                                       vx_scalar a, vx_scalar b, vx_scalar output);
VX_API_ENTRY vx_node VX_API_CALL vxNonMaxSuppressionNode(vx_graph graph, vx_image input,
                                                         vx_image mask, vx_int32 win_size,
                                                         vx_image output);

#ifdef __cplusplus
}
#endif

#endif
