/* The calls of the standard that need what the server doesn't have. Each adds a log entry, and
   returns VX_ERROR_NOT_SUPPORTED or an error object of that status. */
#include "internal.h"

#pragma GCC diagnostic ignored "-Wunused-parameter"

static vx_status refuse_call(const void *reference, const char *name) {
    vx_context context = enter(reference, VX_TYPE_REFERENCE);
    if (context == NULL)
        return VX_ERROR_INVALID_REFERENCE;
    tell((vx_reference)reference, VX_ERROR_NOT_SUPPORTED, "%s: the server has no such function",
         name);
    return leave(context, VX_ERROR_NOT_SUPPORTED);
}

/* Returns an error object in place of the one that a call would make. */
static vx_reference refuse_object(const void *reference, const char *name) {
    vx_context context = enter(reference, VX_TYPE_REFERENCE);
    if (context == NULL)
        return NULL;
    tell((vx_reference)reference, VX_ERROR_NOT_SUPPORTED, "%s: the server has no such objects",
         name);
    vx_reference error = error_of(context, VX_ERROR_NOT_SUPPORTED);
    leave(context, VX_SUCCESS);
    return error;
}

#define STATUS(first, name, ...)                                                                   \
    PUBLIC vx_status VX_API_CALL name(__VA_ARGS__) { return refuse_call(first, #name); }
#define OBJECT(type, first, name, ...)                                                             \
    PUBLIC type VX_API_CALL name(__VA_ARGS__) { return (type)refuse_object(first, #name); }
/* There is no object of the type, only error objects, which aren't released. */
#define RELEASE(type, name, TYPE)                                                                  \
    PUBLIC vx_status VX_API_CALL name(type *object) { return release(object, TYPE); }
#define NODE(name, ...)                                                                            \
    PUBLIC vx_node VX_API_CALL vx##name##Node(vx_graph graph, __VA_ARGS__) {                       \
        return add_missing_node(graph, VX_ERROR_NOT_SUPPORTED,                                     \
                                "vx" #name "Node: the server has no such function");               \
    }
#define AT_ONCE(name, ...)                                                                         \
    PUBLIC vx_status VX_API_CALL vxu##name(vx_context context, __VA_ARGS__) {                      \
        return refuse_call(context, "vxu" #name);                                                  \
    }

PUBLIC vx_enum VX_API_CALL vxRegisterUserStruct(vx_context context, vx_size size) {
    refuse_call(context, "vxRegisterUserStruct");
    return VX_TYPE_INVALID;
}
PUBLIC vx_enum VX_API_CALL vxRegisterUserStructWithName(vx_context context, vx_size size,
                                                        const vx_char *type_name) {
    refuse_call(context, "vxRegisterUserStructWithName");
    return VX_TYPE_INVALID;
}
STATUS(context, vxGetUserStructNameByEnum, vx_context context, vx_enum user_struct_type,
       vx_char *type_name, vx_size name_size)
STATUS(context, vxGetUserStructEnumByName, vx_context context, const vx_char *type_name,
       vx_enum *user_struct_type)
STATUS(context, vxAllocateUserKernelId, vx_context context, vx_enum *pKernelEnumId)
STATUS(context, vxAllocateUserKernelLibraryId, vx_context context, vx_enum *pLibraryId)
OBJECT(vx_image, img, vxCreateImageFromROI, vx_image img, const vx_rectangle_t *rect)
STATUS(image, vxSetImageAttribute, vx_image image, vx_enum attribute, const void *ptr, vx_size size)
OBJECT(vx_image, img, vxCreateImageFromChannel, vx_image img, vx_enum channel)
STATUS(context, vxRegisterKernelLibrary, vx_context context, const vx_char *module,
       vx_publish_kernels_f publish, vx_unpublish_kernels_f unpublish)
STATUS(context, vxLoadKernels, vx_context context, const vx_char *module)
STATUS(context, vxUnloadKernels, vx_context context, const vx_char *module)
OBJECT(vx_kernel, context, vxAddUserKernel, vx_context context,
       const vx_char name[VX_MAX_KERNEL_NAME], vx_enum enumeration, vx_kernel_f func_ptr,
       vx_uint32 numParams, vx_kernel_validate_f validate, vx_kernel_initialize_f init,
       vx_kernel_deinitialize_f deinit)
STATUS(kernel, vxFinalizeKernel, vx_kernel kernel)
STATUS(kernel, vxAddParameterToKernel, vx_kernel kernel, vx_uint32 index, vx_enum dir,
       vx_enum data_type, vx_enum state)
STATUS(kernel, vxRemoveKernel, vx_kernel kernel)
STATUS(kernel, vxSetKernelAttribute, vx_kernel kernel, vx_enum attribute, const void *ptr,
       vx_size size)
STATUS(graph, vxSetGraphAttribute, vx_graph graph, vx_enum attribute, const void *ptr, vx_size size)
STATUS(node, vxAssignNodeCallback, vx_node node, vx_nodecomplete_f callback)
PUBLIC vx_nodecomplete_f VX_API_CALL vxRetrieveNodeCallback(vx_node node) {
    refuse_call(node, "vxRetrieveNodeCallback");
    return NULL;
}
STATUS(graph, vxReplicateNode, vx_graph graph, vx_node first_node, vx_bool replicate[],
       vx_uint32 number_of_parameters)
OBJECT(vx_scalar, graph, vxCreateVirtualScalar, vx_graph graph, vx_enum data_type)
OBJECT(vx_lut, graph, vxCreateVirtualLUT, vx_graph graph, vx_enum data_type, vx_size count)
OBJECT(vx_distribution, graph, vxCreateVirtualDistribution, vx_graph graph, vx_size numBins,
       vx_int32 offset, vx_uint32 range)
OBJECT(vx_threshold, graph, vxCreateVirtualThresholdForImage, vx_graph graph, vx_enum thresh_type,
       vx_df_image input_format, vx_df_image output_format)
STATUS(thresh, vxSetThresholdAttribute, vx_threshold thresh, vx_enum attribute, const void *ptr,
       vx_size size)
OBJECT(vx_convolution, graph, vxCreateVirtualConvolution, vx_graph graph, vx_size columns,
       vx_size rows)
OBJECT(vx_matrix, context, vxCreateMatrix, vx_context context, vx_enum data_type, vx_size columns,
       vx_size rows)
OBJECT(vx_matrix, graph, vxCreateVirtualMatrix, vx_graph graph, vx_enum data_type, vx_size columns,
       vx_size rows)
OBJECT(vx_matrix, context, vxCreateMatrixFromPattern, vx_context context, vx_enum pattern,
       vx_size columns, vx_size rows)
OBJECT(vx_matrix, context, vxCreateMatrixFromPatternAndOrigin, vx_context context, vx_enum pattern,
       vx_size columns, vx_size rows, vx_size origin_col, vx_size origin_row)
RELEASE(vx_matrix, vxReleaseMatrix, VX_TYPE_MATRIX)
STATUS(mat, vxQueryMatrix, vx_matrix mat, vx_enum attribute, void *ptr, vx_size size)
STATUS(matrix, vxCopyMatrix, vx_matrix matrix, void *user_ptr, vx_enum usage, vx_enum user_mem_type)
OBJECT(vx_pyramid, context, vxCreatePyramid, vx_context context, vx_size levels, vx_float32 scale,
       vx_uint32 width, vx_uint32 height, vx_df_image format)
OBJECT(vx_pyramid, graph, vxCreateVirtualPyramid, vx_graph graph, vx_size levels, vx_float32 scale,
       vx_uint32 width, vx_uint32 height, vx_df_image format)
RELEASE(vx_pyramid, vxReleasePyramid, VX_TYPE_PYRAMID)
STATUS(pyr, vxQueryPyramid, vx_pyramid pyr, vx_enum attribute, void *ptr, vx_size size)
OBJECT(vx_image, pyr, vxGetPyramidLevel, vx_pyramid pyr, vx_uint32 index)
OBJECT(vx_remap, context, vxCreateRemap, vx_context context, vx_uint32 src_width,
       vx_uint32 src_height, vx_uint32 dst_width, vx_uint32 dst_height)
OBJECT(vx_remap, graph, vxCreateVirtualRemap, vx_graph graph, vx_uint32 src_width,
       vx_uint32 src_height, vx_uint32 dst_width, vx_uint32 dst_height)
RELEASE(vx_remap, vxReleaseRemap, VX_TYPE_REMAP)
STATUS(remap, vxMapRemapPatch, vx_remap remap, const vx_rectangle_t *rect, vx_map_id *map_id,
       vx_size *stride_y, void **ptr, vx_enum coordinate_type, vx_enum usage, vx_enum mem_type)
STATUS(remap, vxUnmapRemapPatch, vx_remap remap, vx_map_id map_id)
STATUS(remap, vxCopyRemapPatch, vx_remap remap, const vx_rectangle_t *rect, vx_size user_stride_y,
       void *user_ptr, vx_enum user_coordinate_type, vx_enum usage, vx_enum user_mem_type)
STATUS(table, vxQueryRemap, vx_remap table, vx_enum attribute, void *ptr, vx_size size)
OBJECT(vx_array, graph, vxCreateVirtualArray, vx_graph graph, vx_enum item_type, vx_size capacity)
OBJECT(vx_object_array, context, vxCreateObjectArray, vx_context context, vx_reference exemplar,
       vx_size count)
OBJECT(vx_object_array, graph, vxCreateVirtualObjectArray, vx_graph graph, vx_reference exemplar,
       vx_size count)
OBJECT(vx_reference, arr, vxGetObjectArrayItem, vx_object_array arr, vx_uint32 index)
RELEASE(vx_object_array, vxReleaseObjectArray, VX_TYPE_OBJECT_ARRAY)
STATUS(arr, vxQueryObjectArray, vx_object_array arr, vx_enum attribute, void *ptr, vx_size size)
STATUS(meta, vxSetMetaFormatAttribute, vx_meta_format meta, vx_enum attribute, const void *ptr,
       vx_size size)
STATUS(meta, vxSetMetaFormatFromReference, vx_meta_format meta, vx_reference exemplar)
STATUS(meta, vxQueryMetaFormatAttribute, vx_meta_format meta, vx_enum attribute, void *ptr,
       vx_size size)
OBJECT(vx_tensor, context, vxCreateTensor, vx_context context, vx_size number_of_dims,
       const vx_size *dims, vx_enum data_type, vx_int8 fixed_point_position)
OBJECT(vx_object_array, tensor, vxCreateImageObjectArrayFromTensor, vx_tensor tensor,
       const vx_rectangle_t *rect, vx_size array_size, vx_size jump, vx_df_image image_format)
OBJECT(vx_tensor, tensor, vxCreateTensorFromView, vx_tensor tensor, vx_size number_of_dims,
       const vx_size *view_start, const vx_size *view_end)
OBJECT(vx_tensor, context, vxCreateTensorFromHandle, vx_context context, vx_size number_of_dims,
       const vx_size *dims, vx_enum data_type, vx_int8 fixed_point_position, const vx_size *stride,
       void *ptr, vx_enum memory_type)
STATUS(tensor, vxSwapTensorHandle, vx_tensor tensor, void *new_ptr, void **prev_ptr)
OBJECT(vx_tensor, graph, vxCreateVirtualTensor, vx_graph graph, vx_size number_of_dims,
       const vx_size *dims, vx_enum data_type, vx_int8 fixed_point_position)
STATUS(tensor, vxCopyTensorPatch, vx_tensor tensor, vx_size number_of_dims,
       const vx_size *view_start, const vx_size *view_end, const vx_size *user_stride,
       void *user_ptr, vx_enum usage, vx_enum user_memory_type)
STATUS(tensor, vxMapTensorPatch, vx_tensor tensor, vx_size number_of_dims,
       const vx_size *view_start, const vx_size *view_end, vx_map_id *map_id, vx_size *stride,
       void **ptr, vx_enum usage, vx_enum mem_type)
STATUS(tensor, vxUnmapTensorPatch, vx_tensor tensor, vx_map_id map_id)
STATUS(tensor, vxQueryTensor, vx_tensor tensor, vx_enum attribute, void *ptr, vx_size size)
RELEASE(vx_tensor, vxReleaseTensor, VX_TYPE_TENSOR)

NODE(ColorConvert, vx_image input, vx_image output)
NODE(ChannelExtract, vx_image input, vx_enum channel, vx_image output)
NODE(ChannelCombine, vx_image plane0, vx_image plane1, vx_image plane2, vx_image plane3,
     vx_image output)
NODE(Phase, vx_image grad_x, vx_image grad_y, vx_image orientation)
NODE(Magnitude, vx_image grad_x, vx_image grad_y, vx_image mag)
NODE(ScaleImage, vx_image src, vx_image dst, vx_enum type)
NODE(EqualizeHist, vx_image input, vx_image output)
NODE(MeanStdDev, vx_image input, vx_scalar mean, vx_scalar stddev)
NODE(NonLinearFilter, vx_enum function, vx_image input, vx_matrix mask, vx_image output)
NODE(GaussianPyramid, vx_image input, vx_pyramid gaussian)
NODE(LaplacianPyramid, vx_image input, vx_pyramid laplacian, vx_image output)
NODE(LaplacianReconstruct, vx_pyramid laplacian, vx_image input, vx_image output)
NODE(AccumulateWeightedImage, vx_image input, vx_scalar alpha, vx_image accum)
NODE(WeightedAverage, vx_image img1, vx_scalar alpha, vx_image img2, vx_image output)
NODE(CannyEdgeDetector, vx_image input, vx_threshold hyst, vx_int32 gradient_size,
     vx_enum norm_type, vx_image output)
NODE(WarpAffine, vx_image input, vx_matrix matrix, vx_enum type, vx_image output)
NODE(WarpPerspective, vx_image input, vx_matrix matrix, vx_enum type, vx_image output)
NODE(HarrisCorners, vx_image input, vx_scalar strength_thresh, vx_scalar min_distance,
     vx_scalar sensitivity, vx_int32 gradient_size, vx_int32 block_size, vx_array corners,
     vx_scalar num_corners)
NODE(FastCorners, vx_image input, vx_scalar strength_thresh, vx_bool nonmax_suppression,
     vx_array corners, vx_scalar num_corners)
NODE(OpticalFlowPyrLK, vx_pyramid old_images, vx_pyramid new_images, vx_array old_points,
     vx_array new_points_estimates, vx_array new_points, vx_enum termination, vx_scalar epsilon,
     vx_scalar num_iterations, vx_scalar use_initial_estimate, vx_size window_dimension)
NODE(Remap, vx_image input, vx_remap table, vx_enum policy, vx_image output)
NODE(HalfScaleGaussian, vx_image input, vx_image output, vx_int32 kernel_size)
NODE(MatchTemplate, vx_image src, vx_image templateImage, vx_enum matchingMethod, vx_image output)
NODE(LBP, vx_image in, vx_enum format, vx_int8 kernel_size, vx_image out)
NODE(HOGCells, vx_image input, vx_int32 cell_width, vx_int32 cell_height, vx_int32 num_bins,
     vx_tensor magnitudes, vx_tensor bins)
NODE(HOGFeatures, vx_image input, vx_tensor magnitudes, vx_tensor bins, const vx_hog_t *params,
     vx_size hog_param_size, vx_tensor features)
NODE(HoughLinesP, vx_image input, const vx_hough_lines_p_t *params, vx_array lines_array,
     vx_scalar num_lines)
NODE(BilateralFilter, vx_tensor src, vx_int32 diameter, vx_float32 sigmaSpace,
     vx_float32 sigmaValues, vx_tensor dst)
NODE(TensorMultiply, vx_tensor input1, vx_tensor input2, vx_scalar scale, vx_enum overflow_policy,
     vx_enum rounding_policy, vx_tensor output)
NODE(TensorAdd, vx_tensor input1, vx_tensor input2, vx_enum policy, vx_tensor output)
NODE(TensorSubtract, vx_tensor input1, vx_tensor input2, vx_enum policy, vx_tensor output)
NODE(TensorTableLookup, vx_tensor input1, vx_lut lut, vx_tensor output)
NODE(TensorTranspose, vx_tensor input, vx_tensor output, vx_size dimension1, vx_size dimension2)
NODE(TensorConvertDepth, vx_tensor input, vx_enum policy, vx_scalar norm, vx_scalar offset,
     vx_tensor output)
NODE(TensorMatrixMultiply, vx_tensor input1, vx_tensor input2, vx_tensor input3,
     const vx_tensor_matrix_multiply_params_t *matrix_multiply_params, vx_tensor output)
NODE(Copy, vx_reference input, vx_reference output)
NODE(Select, vx_scalar condition, vx_reference true_value, vx_reference false_value,
     vx_reference output)
NODE(ScalarOperation, vx_enum scalar_operation, vx_scalar a, vx_scalar b, vx_scalar output)
NODE(NonMaxSuppression, vx_image input, vx_image mask, vx_int32 win_size, vx_image output)

AT_ONCE(ColorConvert, vx_image input, vx_image output)
AT_ONCE(ChannelExtract, vx_image input, vx_enum channel, vx_image output)
AT_ONCE(ChannelCombine, vx_image plane0, vx_image plane1, vx_image plane2, vx_image plane3,
        vx_image output)
AT_ONCE(Phase, vx_image grad_x, vx_image grad_y, vx_image orientation)
AT_ONCE(Magnitude, vx_image grad_x, vx_image grad_y, vx_image mag)
AT_ONCE(ScaleImage, vx_image src, vx_image dst, vx_enum type)
AT_ONCE(EqualizeHist, vx_image input, vx_image output)
AT_ONCE(MeanStdDev, vx_image input, vx_float32 *mean, vx_float32 *stddev)
AT_ONCE(NonLinearFilter, vx_enum function, vx_image input, vx_matrix mask, vx_image output)
AT_ONCE(GaussianPyramid, vx_image input, vx_pyramid gaussian)
AT_ONCE(LaplacianPyramid, vx_image input, vx_pyramid laplacian, vx_image output)
AT_ONCE(LaplacianReconstruct, vx_pyramid laplacian, vx_image input, vx_image output)
AT_ONCE(AccumulateWeightedImage, vx_image input, vx_scalar alpha, vx_image accum)
AT_ONCE(WeightedAverage, vx_image img1, vx_scalar alpha, vx_image img2, vx_image output)
AT_ONCE(CannyEdgeDetector, vx_image input, vx_threshold hyst, vx_int32 gradient_size,
        vx_enum norm_type, vx_image output)
AT_ONCE(WarpAffine, vx_image input, vx_matrix matrix, vx_enum type, vx_image output)
AT_ONCE(WarpPerspective, vx_image input, vx_matrix matrix, vx_enum type, vx_image output)
AT_ONCE(HarrisCorners, vx_image input, vx_scalar strength_thresh, vx_scalar min_distance,
        vx_scalar sensitivity, vx_int32 gradient_size, vx_int32 block_size, vx_array corners,
        vx_scalar num_corners)
AT_ONCE(FastCorners, vx_image input, vx_scalar strength_thresh, vx_bool nonmax_suppression,
        vx_array corners, vx_scalar num_corners)
AT_ONCE(OpticalFlowPyrLK, vx_pyramid old_images, vx_pyramid new_images, vx_array old_points,
        vx_array new_points_estimates, vx_array new_points, vx_enum termination, vx_scalar epsilon,
        vx_scalar num_iterations, vx_scalar use_initial_estimate, vx_size window_dimension)
AT_ONCE(Remap, vx_image input, vx_remap table, vx_enum policy, vx_image output)
AT_ONCE(HalfScaleGaussian, vx_image input, vx_image output, vx_int32 kernel_size)
AT_ONCE(MatchTemplate, vx_image src, vx_image templateImage, vx_enum matchingMethod,
        vx_image output)
AT_ONCE(LBP, vx_image in, vx_enum format, vx_int8 kernel_size, vx_image out)
AT_ONCE(HOGCells, vx_image input, vx_int32 cell_width, vx_int32 cell_height, vx_int32 num_bins,
        vx_tensor magnitudes, vx_tensor bins)
AT_ONCE(HOGFeatures, vx_image input, vx_tensor magnitudes, vx_tensor bins, const vx_hog_t *params,
        vx_size hog_param_size, vx_tensor features)
AT_ONCE(HoughLinesP, vx_image input, const vx_hough_lines_p_t *params, vx_array lines_array,
        vx_scalar num_lines)
AT_ONCE(BilateralFilter, vx_tensor src, vx_int32 diameter, vx_float32 sigmaSpace,
        vx_float32 sigmaValues, vx_tensor dst)
AT_ONCE(TensorMultiply, vx_tensor input1, vx_tensor input2, vx_scalar scale,
        vx_enum overflow_policy, vx_enum rounding_policy, vx_tensor output)
AT_ONCE(TensorAdd, vx_tensor input1, vx_tensor input2, vx_enum policy, vx_tensor output)
AT_ONCE(TensorSubtract, vx_tensor input1, vx_tensor input2, vx_enum policy, vx_tensor output)
AT_ONCE(TensorTableLookup, vx_tensor input1, vx_lut lut, vx_tensor output)
AT_ONCE(TensorTranspose, vx_tensor input, vx_tensor output, vx_size dimension1, vx_size dimension2)
AT_ONCE(TensorConvertDepth, vx_tensor input, vx_enum policy, vx_scalar norm, vx_scalar offset,
        vx_tensor output)
AT_ONCE(TensorMatrixMultiply, vx_tensor input1, vx_tensor input2, vx_tensor input3,
        const vx_tensor_matrix_multiply_params_t *matrix_multiply_params, vx_tensor output)
AT_ONCE(Copy, vx_reference input, vx_reference output)
AT_ONCE(NonMaxSuppression, vx_image input, vx_image mask, vx_int32 win_size, vx_image output)
