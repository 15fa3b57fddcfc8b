/* The objects of OpenVX: contexts, data, graphs, nodes and parameters. */
#ifndef VX_VX_API_H
#define VX_VX_API_H

#include <VX/vx_types.h>

#ifdef __cplusplus
extern "C" {
#endif

/*
 * vxQuery*: writes the value of an attribute to ptr. VX_ERROR_INVALID_PARAMETERS: the size isn't
 * that of the value. VX_ERROR_NOT_SUPPORTED: the object doesn't have the attribute. vxSet*Attribute
 * has the same errors, and VX_ERROR_INVALID_VALUE: the value isn't allowed.
 *
 * vxRelease*: releases a reference and sets the pointer to NULL. With the last reference the object
 * is destroyed, unless a node of a graph uses it.
 *
 * vxCopy*: copies from the object to the program's memory by VX_READ_ONLY, and back by
 * VX_WRITE_ONLY. VX_ERROR_INVALID_PARAMETERS: another usage, or a type of memory other than
 * VX_MEMORY_TYPE_HOST.
 */

/* ---- Contexts ---- */

/* Starts a server or connects to one, and opens a context on it. If that fails, returns NULL and
   writes the reason on standard error. */
VX_API_ENTRY vx_context VX_API_CALL vxCreateContext(void);

/* With the last reference all objects of the context are destroyed, and the server that it started
   ends. */
VX_API_ENTRY vx_status VX_API_CALL vxReleaseContext(vx_context *context);

/* Returns the context of an object, or NULL if the reference isn't valid. */
VX_API_ENTRY vx_context VX_API_CALL vxGetContext(vx_reference reference);

VX_API_ENTRY vx_status VX_API_CALL vxQueryContext(vx_context context, vx_enum attribute, void *ptr,
                                                  vx_size size);

/* VX_CONTEXT_IMMEDIATE_BORDER: the vx_border_t of vxu functions.
   VX_CONTEXT_IMMEDIATE_BORDER_POLICY: a vx_border_policy_e, without effect, since every function
   supports every border. */
VX_API_ENTRY vx_status VX_API_CALL vxSetContextAttribute(vx_context context, vx_enum attribute,
                                                         const void *ptr, vx_size size);

/* Switches log entries on by VX_DIRECTIVE_ENABLE_LOGGING, off by VX_DIRECTIVE_DISABLE_LOGGING. Runs
   are always timed, so the performance directives have no effect. VX_ERROR_NOT_SUPPORTED: another
   directive. */
VX_API_ENTRY vx_status VX_API_CALL vxDirective(vx_reference reference, vx_enum directive);

/* Hints have no effect. VX_ERROR_NOT_SUPPORTED: a hint that vx_hint_e doesn't have. */
VX_API_ENTRY vx_status VX_API_CALL vxHint(vx_reference reference, vx_enum hint, const void *data,
                                          vx_size data_size);

/* The only target is VX_TARGET_ANY, or VX_TARGET_STRING with the name "any".
   VX_ERROR_NOT_SUPPORTED: another target. */
VX_API_ENTRY vx_status VX_API_CALL vxSetImmediateModeTarget(vx_context context, vx_enum target_enum,
                                                            const char *target_string);

/* Sets the function that is called with each log entry, and switches entries on. Calls for one
   context never overlap. NULL sets none. */
VX_API_ENTRY void VX_API_CALL vxRegisterLogCallback(vx_context context, vx_log_callback_f callback,
                                                    vx_bool reentrant);

/* Adds a log entry. The message is a format as for printf. VX_SUCCESS adds none. */
VX_API_ENTRY void VX_API_CALL vxAddLogEntry(vx_reference ref, vx_status status,
                                            const char *message, ...);

/* ---- References ---- */

/* Returns VX_SUCCESS, or why the object couldn't be made. VX_ERROR_NO_RESOURCES: the reference is
   NULL. */
VX_API_ENTRY vx_status VX_API_CALL vxGetStatus(vx_reference reference);

VX_API_ENTRY vx_status VX_API_CALL vxQueryReference(vx_reference ref, vx_enum attribute, void *ptr,
                                                    vx_size size);

/* Adds a reference to an object, which has to be released too. */
VX_API_ENTRY vx_status VX_API_CALL vxRetainReference(vx_reference ref);

/* Releases a reference of any type. */
VX_API_ENTRY vx_status VX_API_CALL vxReleaseReference(vx_reference *ref_ptr);

/* Names an object, for log entries; NULL removes the name. VX_ERROR_INVALID_PARAMETERS: the name
   has more than 63 bytes. */
VX_API_ENTRY vx_status VX_API_CALL vxSetReferenceName(vx_reference ref, const vx_char *name);

/* Returns a kernel of the server; docs/from_openvx.md lists them. VX_ERROR_NOT_SUPPORTED: there is
   no such kernel. */
VX_API_ENTRY vx_kernel VX_API_CALL vxGetKernelByName(vx_context context, const vx_char *name);
VX_API_ENTRY vx_kernel VX_API_CALL vxGetKernelByEnum(vx_context context, vx_enum kernel);
VX_API_ENTRY vx_status VX_API_CALL vxQueryKernel(vx_kernel kernel, vx_enum attribute, void *ptr,
                                                 vx_size size);
VX_API_ENTRY vx_status VX_API_CALL vxReleaseKernel(vx_kernel *kernel);

/* Returns a kernel's parameter, for its attributes. VX_ERROR_INVALID_PARAMETERS: there is no such
   parameter. */
VX_API_ENTRY vx_parameter VX_API_CALL vxGetKernelParameterByIndex(vx_kernel kernel,
                                                                  vx_uint32 index);

/* ---- Images ---- */

/* Makes an image that is 0 everywhere and wholly valid. VX_ERROR_NOT_SUPPORTED: a format other than
   U8, S16 and U32. VX_ERROR_INVALID_DIMENSION: a side isn't 1 to 8192. VX_ERROR_NO_RESOURCES: the
   context's quota or its 1,024 objects are used up. */
VX_API_ENTRY vx_image VX_API_CALL vxCreateImage(vx_context context, vx_uint32 width,
                                                vx_uint32 height, vx_df_image color);

/* Makes an image of one value, which can only be read: writes return VX_ERROR_NOT_SUPPORTED. Errors
   as for vxCreateImage. */
VX_API_ENTRY vx_image VX_API_CALL vxCreateUniformImage(vx_context context, vx_uint32 width,
                                                       vx_uint32 height, vx_df_image color,
                                                       const vx_pixel_value_t *value);

/* Makes an image between the nodes of a graph. A side of 0 and the format VX_DF_IMAGE_VIRT are
   taken from the node that writes it. Errors as for vxCreateImage. */
VX_API_ENTRY vx_image VX_API_CALL vxCreateVirtualImage(vx_graph graph, vx_uint32 width,
                                                       vx_uint32 height, vx_df_image color);

/* Makes an image in the program's memory, by rows, without gaps between the samples of a row. A run
   that reads it first copies it to the server, and a run that writes it copies it back. Maps are in
   place. VX_ERROR_INVALID_PARAMETERS: another layout, or no memory. VX_ERROR_NOT_SUPPORTED: a
   format other than U8, S16 and U32, or another type of memory. */
VX_API_ENTRY vx_image VX_API_CALL vxCreateImageFromHandle(vx_context context, vx_df_image color,
                                                          const vx_imagepatch_addressing_t addrs[],
                                                          void *const ptrs[], vx_enum memory_type);

/* Gives an image from a handle other memory of the same layout, and returns the former pointer.
   If new_ptrs is NULL it has no memory, and its uses return VX_ERROR_NOT_ALLOCATED.
   VX_ERROR_INVALID_PARAMETERS: the image isn't from a handle, num_planes isn't 1, or the plane's
   new pointer is NULL. VX_FAILURE: it is mapped. */
VX_API_ENTRY vx_status VX_API_CALL vxSwapImageHandle(vx_image image, void *const new_ptrs[],
                                                     void *prev_ptrs[], vx_size num_planes);

/* A virtual image has the size and format that were declared. Open parts are those that the last
   verification of its graph resolved. */
VX_API_ENTRY vx_status VX_API_CALL vxQueryImage(vx_image image, vx_enum attribute, void *ptr,
                                                vx_size size);
VX_API_ENTRY vx_status VX_API_CALL vxReleaseImage(vx_image *image);

/* Gives the valid rectangle: four zeros if no pixel is valid. VX_ERROR_OPTIMIZED_AWAY: the image is
   virtual. */
VX_API_ENTRY vx_status VX_API_CALL vxGetValidRegionImage(vx_image image, vx_rectangle_t *rect);

/* Sets the valid rectangle; NULL is the whole image. The samples outside it become 0, and stay 0 if
   they are made valid later; those of an image from a handle stay as they are.
   VX_ERROR_INVALID_PARAMETERS: it isn't a rectangle within the image. VX_ERROR_OPTIMIZED_AWAY: the
   image is virtual. */
VX_API_ENTRY vx_status VX_API_CALL vxSetImageValidRectangle(vx_image image,
                                                            const vx_rectangle_t *rect);

/* Sets all pixels to one value; for the valid rectangle see vxCopyImagePatch.
   VX_ERROR_INVALID_REFERENCE: the image is virtual or uniform. VX_ERROR_NOT_ALLOCATED: it is from a
   handle without memory. */
VX_API_ENTRY vx_status VX_API_CALL vxSetImagePixelValues(vx_image image,
                                                         const vx_pixel_value_t *pixel_value);

/* Copies a rectangle of an image. A write leaves the valid rectangle as it is. When a graph or
   function runs or a delay ages, the samples outside become 0. VX_ERROR_INVALID_PARAMETERS: the
   rectangle is empty or not within the image, the plane isn't 0, or the memory is too small as
   described. VX_ERROR_OPTIMIZED_AWAY: the image is virtual. VX_ERROR_NOT_SUPPORTED: a write to a
   uniform image. VX_ERROR_NOT_ALLOCATED: it is from a handle without memory. */
VX_API_ENTRY vx_status VX_API_CALL vxCopyImagePatch(
    vx_image image, const vx_rectangle_t *image_rect, vx_uint32 image_plane_index,
    const vx_imagepatch_addressing_t *user_addr, void *user_ptr, vx_enum usage,
    vx_enum user_mem_type);

/* Maps a rectangle of an image: in place for one from a handle, else a copy without gaps. By
   VX_WRITE_ONLY its initial samples are unspecified. Errors as for vxCopyImagePatch. */
VX_API_ENTRY vx_status VX_API_CALL vxMapImagePatch(vx_image image, const vx_rectangle_t *rect,
                                                   vx_uint32 plane_index, vx_map_id *map_id,
                                                   vx_imagepatch_addressing_t *addr, void **ptr,
                                                   vx_enum usage, vx_enum mem_type,
                                                   vx_uint32 flags);

/* Removes a map, and writes it to the image if it was made for writing, as vxCopyImagePatch does.
   VX_ERROR_INVALID_PARAMETERS: the image has no such map. */
VX_API_ENTRY vx_status VX_API_CALL vxUnmapImagePatch(vx_image image, vx_map_id map_id);

/* Returns the address of sample number `index` of a patch, by rows; NULL if there is none, or if
   ptr or addr is NULL. */
VX_API_ENTRY void *VX_API_CALL vxFormatImagePatchAddress1d(void *ptr, vx_uint32 index,
                                                           const vx_imagepatch_addressing_t *addr);

/* Returns the address of the sample in column x and row y of a patch; NULL if there is none, or if
   ptr or addr is NULL. */
VX_API_ENTRY void *VX_API_CALL vxFormatImagePatchAddress2d(void *ptr, vx_uint32 x, vx_uint32 y,
                                                           const vx_imagepatch_addressing_t *addr);

/* ---- Parameters of functions ---- */

/* Makes a threshold of U8 or S16 samples with an output of U8. At first its limits are 0, true is
   255 and false 0. VX_ERROR_INVALID_TYPE: another type. VX_ERROR_NOT_SUPPORTED: other formats. */
VX_API_ENTRY vx_threshold VX_API_CALL vxCreateThresholdForImage(vx_context context,
                                                                vx_enum thresh_type,
                                                                vx_df_image input_format,
                                                                vx_df_image output_format);

/* The limit of a threshold of VX_THRESHOLD_TYPE_BINARY: greater samples are true.
   VX_ERROR_NOT_COMPATIBLE: a threshold of the other type. */
VX_API_ENTRY vx_status VX_API_CALL vxCopyThresholdValue(vx_threshold thresh,
                                                        vx_pixel_value_t *value_ptr, vx_enum usage,
                                                        vx_enum user_mem_type);

/* The limits of a threshold of VX_THRESHOLD_TYPE_RANGE: samples from the lower to the upper one are
   true. If the upper limit is below the lower one, uses of the threshold return
   VX_ERROR_INVALID_VALUE. VX_ERROR_NOT_COMPATIBLE: a threshold of the other type. */
VX_API_ENTRY vx_status VX_API_CALL vxCopyThresholdRange(vx_threshold thresh,
                                                        vx_pixel_value_t *lower_value_ptr,
                                                        vx_pixel_value_t *upper_value_ptr,
                                                        vx_enum usage, vx_enum user_mem_type);

/* The outputs for true and for false. */
VX_API_ENTRY vx_status VX_API_CALL vxCopyThresholdOutput(vx_threshold thresh,
                                                         vx_pixel_value_t *true_value_ptr,
                                                         vx_pixel_value_t *false_value_ptr,
                                                         vx_enum usage, vx_enum user_mem_type);
VX_API_ENTRY vx_status VX_API_CALL vxQueryThreshold(vx_threshold thresh, vx_enum attribute,
                                                    void *ptr, vx_size size);
VX_API_ENTRY vx_status VX_API_CALL vxReleaseThreshold(vx_threshold *thresh);

/* Makes a lookup table of up to 256 entries of VX_TYPE_UINT8 or 65,536 of VX_TYPE_INT16, at first
   0. A sample without an entry gets the nearest one. VX_ERROR_INVALID_TYPE: another type.
   VX_ERROR_INVALID_PARAMETERS: another count. */
VX_API_ENTRY vx_lut VX_API_CALL vxCreateLUT(vx_context context, vx_enum data_type, vx_size count);

/* All entries, the one for the least sample first. */
VX_API_ENTRY vx_status VX_API_CALL vxCopyLUT(vx_lut lut, void *user_ptr, vx_enum usage,
                                             vx_enum user_mem_type);

/* Maps the entries in place. */
VX_API_ENTRY vx_status VX_API_CALL vxMapLUT(vx_lut lut, vx_map_id *map_id, void **ptr,
                                            vx_enum usage, vx_enum mem_type, vx_bitfield flags);
VX_API_ENTRY vx_status VX_API_CALL vxUnmapLUT(vx_lut lut, vx_map_id map_id);
VX_API_ENTRY vx_status VX_API_CALL vxQueryLUT(vx_lut lut, vx_enum attribute, void *ptr,
                                              vx_size size);
VX_API_ENTRY vx_status VX_API_CALL vxReleaseLUT(vx_lut *lut);

/* Makes a convolution, at first with coefficients of 0 and a scale of 1.
   VX_ERROR_INVALID_DIMENSION: a side isn't 3, 5, 7 or 9. */
VX_API_ENTRY vx_convolution VX_API_CALL vxCreateConvolution(vx_context context, vx_size columns,
                                                            vx_size rows);

/* All coefficients, as vx_int16 by rows from the top. */
VX_API_ENTRY vx_status VX_API_CALL vxCopyConvolutionCoefficients(vx_convolution conv,
                                                                 void *user_ptr, vx_enum usage,
                                                                 vx_enum user_mem_type);

/* VX_CONVOLUTION_SCALE: a vx_uint32 that is a power of 2. */
VX_API_ENTRY vx_status VX_API_CALL vxSetConvolutionAttribute(vx_convolution conv,
                                                             vx_enum attribute, const void *ptr,
                                                             vx_size size);
VX_API_ENTRY vx_status VX_API_CALL vxQueryConvolution(vx_convolution conv, vx_enum attribute,
                                                      void *ptr, vx_size size);
VX_API_ENTRY vx_status VX_API_CALL vxReleaseConvolution(vx_convolution *conv);

/* Makes a distribution: numBins bins that divide the samples from offset to offset + range - 1.
   VX_ERROR_INVALID_VALUE: numBins or range isn't 1 to 256, or offset isn't 0 to 255. */
VX_API_ENTRY vx_distribution VX_API_CALL vxCreateDistribution(vx_context context, vx_size numBins,
                                                              vx_int32 offset, vx_uint32 range);

/* The counts, a vx_uint32 for each bin. VX_ERROR_NOT_SUPPORTED: VX_WRITE_ONLY. */
VX_API_ENTRY vx_status VX_API_CALL vxCopyDistribution(vx_distribution distribution, void *user_ptr,
                                                      vx_enum usage, vx_enum user_mem_type);

/* Maps a copy of the counts. VX_ERROR_NOT_SUPPORTED: a usage other than VX_READ_ONLY. */
VX_API_ENTRY vx_status VX_API_CALL vxMapDistribution(vx_distribution distribution,
                                                     vx_map_id *map_id, void **ptr, vx_enum usage,
                                                     vx_enum mem_type, vx_bitfield flags);
VX_API_ENTRY vx_status VX_API_CALL vxUnmapDistribution(vx_distribution distribution,
                                                       vx_map_id map_id);
VX_API_ENTRY vx_status VX_API_CALL vxQueryDistribution(vx_distribution distribution,
                                                       vx_enum attribute, void *ptr, vx_size size);
VX_API_ENTRY vx_status VX_API_CALL vxReleaseDistribution(vx_distribution *distribution);

/* Makes a scalar of a type from VX_TYPE_CHAR to VX_TYPE_DF_IMAGE, or VX_TYPE_BOOL. Its value is at
   ptr, or 0 if that is NULL. VX_ERROR_INVALID_TYPE: another type. */
VX_API_ENTRY vx_scalar VX_API_CALL vxCreateScalar(vx_context context, vx_enum data_type,
                                                  const void *ptr);

/* The same. VX_ERROR_INVALID_PARAMETERS: the size isn't that of the type. */
VX_API_ENTRY vx_scalar VX_API_CALL vxCreateScalarWithSize(vx_context context, vx_enum data_type,
                                                          const void *ptr, vx_size size);
VX_API_ENTRY vx_status VX_API_CALL vxCopyScalar(vx_scalar scalar, void *user_ptr, vx_enum usage,
                                                vx_enum user_mem_type);
VX_API_ENTRY vx_status VX_API_CALL vxCopyScalarWithSize(vx_scalar scalar, vx_size size,
                                                        void *user_ptr, vx_enum usage,
                                                        vx_enum user_mem_type);
VX_API_ENTRY vx_status VX_API_CALL vxQueryScalar(vx_scalar scalar, vx_enum attribute, void *ptr,
                                                 vx_size size);
VX_API_ENTRY vx_status VX_API_CALL vxReleaseScalar(vx_scalar *scalar);

/* Makes an array of numbers, rectangles, keypoints or coordinates, of up to 2^28 bytes. MinMaxLoc
   writes arrays of VX_TYPE_COORDINATES2D. VX_ERROR_NOT_SUPPORTED: another type.
   VX_ERROR_INVALID_PARAMETERS: another capacity. */
VX_API_ENTRY vx_array VX_API_CALL vxCreateArray(vx_context context, vx_enum item_type,
                                                vx_size capacity);

/* Appends items. VX_FAILURE: the array has no room for all of them. */
VX_API_ENTRY vx_status VX_API_CALL vxAddArrayItems(vx_array arr, vx_size count, const void *ptr,
                                                   vx_size stride);

/* Item number `index` of a mapped range, counted from range_start. */
#define vxFormatArrayPointer(ptr, index, stride) (&(((vx_uint8 *)(ptr))[(index) * (stride)]))
#define vxArrayItem(type, ptr, index, stride)                                                      \
    (*(type *)(vxFormatArrayPointer((ptr), (index), (stride))))

/* Copies the items range_start to range_end - 1. VX_ERROR_INVALID_PARAMETERS: they aren't all
   there. */
VX_API_ENTRY vx_status VX_API_CALL vxCopyArrayRange(vx_array array, vx_size range_start,
                                                    vx_size range_end, vx_size user_stride,
                                                    void *user_ptr, vx_enum usage,
                                                    vx_enum user_mem_type);

/* Maps the items range_start to range_end - 1 in place. Errors as for vxCopyArrayRange. */
VX_API_ENTRY vx_status VX_API_CALL vxMapArrayRange(vx_array array, vx_size range_start,
                                                   vx_size range_end, vx_map_id *map_id,
                                                   vx_size *stride, void **ptr, vx_enum usage,
                                                   vx_enum mem_type, vx_uint32 flags);
VX_API_ENTRY vx_status VX_API_CALL vxUnmapArrayRange(vx_array array, vx_map_id map_id);

/* Removes the items from new_num_items on. VX_ERROR_INVALID_PARAMETERS: there are fewer. */
VX_API_ENTRY vx_status VX_API_CALL vxTruncateArray(vx_array array, vx_size new_num_items);
VX_API_ENTRY vx_status VX_API_CALL vxQueryArray(vx_array array, vx_enum attribute, void *ptr,
                                                vx_size size);
VX_API_ENTRY vx_status VX_API_CALL vxReleaseArray(vx_array *array);

/* Makes a delay of 1 to 16 images with the format and size of the exemplar, 0 everywhere.
   VX_ERROR_NOT_SUPPORTED: the exemplar isn't an image. VX_ERROR_INVALID_VALUE: another number of
   slots. VX_ERROR_OPTIMIZED_AWAY: the exemplar is virtual. */
VX_API_ENTRY vx_delay VX_API_CALL vxCreateDelay(vx_context context, vx_reference exemplar,
                                                vx_size num_slots);

/* Returns a reference to a slot: 0 is the newest, -1 the one before, and so on. It means the image
   that is in the slot when it is used. The delay owns the reference, so it isn't released.
   VX_ERROR_INVALID_PARAMETERS: there is no such slot. */
VX_API_ENTRY vx_reference VX_API_CALL vxGetReferenceFromDelay(vx_delay delay, vx_int32 index);

/* Moves each image to the next older slot, and the one in the oldest slot to slot 0. */
VX_API_ENTRY vx_status VX_API_CALL vxAgeDelay(vx_delay delay);

/* From the next vxProcessGraph or vxScheduleGraph on, each successful run of the graph ages the
   delay once, after the run. Registering it again has no effect. Several graphs may age one delay.
   The graph doesn't retain the delay: a released one ages as long as a node uses a slot of it. */
VX_API_ENTRY vx_status VX_API_CALL vxRegisterAutoAging(vx_graph graph, vx_delay delay);
VX_API_ENTRY vx_status VX_API_CALL vxQueryDelay(vx_delay delay, vx_enum attribute, void *ptr,
                                                vx_size size);
VX_API_ENTRY vx_status VX_API_CALL vxReleaseDelay(vx_delay *delay);

/* ---- Graphs ---- */

VX_API_ENTRY vx_graph VX_API_CALL vxCreateGraph(vx_context context);
/* VX_GRAPH_PERFORMANCE: a vx_perf_t of the successful runs, each up to the end of vxProcessGraph or
   vxWaitGraph. */
VX_API_ENTRY vx_status VX_API_CALL vxQueryGraph(vx_graph graph, vx_enum attribute, void *ptr,
                                                vx_size size);
VX_API_ENTRY vx_status VX_API_CALL vxReleaseGraph(vx_graph *graph);

/*
 * Checks that the graph can run as it is now. Otherwise a log entry names the node at fault.
 *
 *   VX_ERROR_INVALID_NODE       a node couldn't be made: make the graph anew, or, if there was no
 *                               memory, the node
 *   VX_ERROR_NOT_SUFFICIENT     a node of a kernel lacks a parameter
 *   VX_ERROR_MULTIPLE_WRITERS   an object is written twice
 *   VX_ERROR_INVALID_GRAPH      a cycle
 *   VX_ERROR_INVALID_LINK       a virtual image is added to, or is read and not written
 *   VX_ERROR_INVALID_FORMAT     the formats of a node's images
 *   VX_ERROR_INVALID_DIMENSION  the sizes of a node's images
 *   VX_ERROR_INVALID_VALUE      a node's threshold, scale or shift
 *   VX_ERROR_NOT_SUPPORTED      a scale other than 1 / 2^n with n from 0 to 15
 *   VX_ERROR_NO_RESOURCES       too large virtual images, or more than 256 nodes
 *   VX_ERROR_GRAPH_SCHEDULED    it is scheduled
 */
VX_API_ENTRY vx_status VX_API_CALL vxVerifyGraph(vx_graph graph);

/* Verifies the graph, unless it is verified, and runs it. Errors as for vxVerifyGraph. */
VX_API_ENTRY vx_status VX_API_CALL vxProcessGraph(vx_graph graph);

/* Verifies the graph, unless it is verified, and starts a run. Errors as for vxVerifyGraph. */
VX_API_ENTRY vx_status VX_API_CALL vxScheduleGraph(vx_graph graph);

/* Waits for a scheduled run, and returns what vxProcessGraph would. VX_FAILURE: the graph isn't
   scheduled. */
VX_API_ENTRY vx_status VX_API_CALL vxWaitGraph(vx_graph graph);

/* Returns whether the graph was verified and hasn't changed since. */
VX_API_ENTRY vx_bool VX_API_CALL vxIsGraphVerified(vx_graph graph);

/* Makes a node of a kernel. Its parameters are set by vxSetParameterByIndex; if a required one
   isn't set, vxVerifyGraph returns VX_ERROR_NOT_SUFFICIENT. */
VX_API_ENTRY vx_node VX_API_CALL vxCreateGenericNode(vx_graph graph, vx_kernel kernel);

/* VX_NODE_STATUS: the status in the last verification or run. VX_NODE_PERFORMANCE: the graph's. */
VX_API_ENTRY vx_status VX_API_CALL vxQueryNode(vx_node node, vx_enum attribute, void *ptr,
                                               vx_size size);

/* VX_NODE_BORDER: a vx_border_t. */
VX_API_ENTRY vx_status VX_API_CALL vxSetNodeAttribute(vx_node node, vx_enum attribute,
                                                      const void *ptr, vx_size size);

/* As vxSetImmediateModeTarget. */
VX_API_ENTRY vx_status VX_API_CALL vxSetNodeTarget(vx_node node, vx_enum target_enum,
                                                   const char *target_string);

/* The node stays in its graph. */
VX_API_ENTRY vx_status VX_API_CALL vxReleaseNode(vx_node *node);

/* Removes a node from its graph, and releases it. */
VX_API_ENTRY vx_status VX_API_CALL vxRemoveNode(vx_node *node);

/* Returns a parameter of a node. They are numbered from 0, without the graph.
   VX_ERROR_INVALID_PARAMETERS: there is no such parameter. */
VX_API_ENTRY vx_parameter VX_API_CALL vxGetParameterByIndex(vx_node node, vx_uint32 index);

/* VX_PARAMETER_REF: a new reference to the value, which has to be released; NULL if there is none,
   or if the node was removed. A policy isn't an object: for it, this is a new scalar of
   VX_TYPE_ENUM. */
VX_API_ENTRY vx_status VX_API_CALL vxQueryParameter(vx_parameter parameter, vx_enum attribute,
                                                    void *ptr, vx_size size);

/* Sets a parameter of a node. A policy is read from its scalar immediately. Errors as for the
   function that makes the node, and VX_ERROR_INVALID_PARAMETERS: there is no such parameter;
   VX_ERROR_INVALID_NODE: the node was removed; VX_ERROR_GRAPH_SCHEDULED: its graph is scheduled. */
VX_API_ENTRY vx_status VX_API_CALL vxSetParameterByIndex(vx_node node, vx_uint32 index,
                                                         vx_reference value);
VX_API_ENTRY vx_status VX_API_CALL vxSetParameterByReference(vx_parameter parameter,
                                                             vx_reference value);
VX_API_ENTRY vx_status VX_API_CALL vxReleaseParameter(vx_parameter *param);

/* Makes a parameter of a node the next parameter of its graph. They are numbered from 0.
   VX_ERROR_INVALID_PARAMETERS: the node isn't in the graph. */
VX_API_ENTRY vx_status VX_API_CALL vxAddParameterToGraph(vx_graph graph, vx_parameter parameter);

/* Returns a new reference to a parameter of a graph. VX_ERROR_INVALID_PARAMETERS: there is no such
   parameter. */
VX_API_ENTRY vx_parameter VX_API_CALL vxGetGraphParameterByIndex(vx_graph graph, vx_uint32 index);

/* Sets the node's parameter, as vxSetParameterByIndex does. */
VX_API_ENTRY vx_status VX_API_CALL vxSetGraphParameterByIndex(vx_graph graph, vx_uint32 index,
                                                              vx_reference value);

/*
 * ---- What the server can't do ----
 *
 * These calls are declared so that programs compile. Each, except a release, adds a log entry.
 * Calls that register a type return VX_TYPE_INVALID, and vxRetrieveNodeCallback returns NULL. All
 * others return VX_ERROR_NOT_SUPPORTED, or an object with that status, whose typed release returns
 * VX_ERROR_INVALID_REFERENCE. docs/from_openvx.md lists these calls.
 */

/* Contexts. */

VX_API_ENTRY vx_enum VX_API_CALL vxRegisterUserStruct(vx_context context, vx_size size);
VX_API_ENTRY vx_enum VX_API_CALL vxRegisterUserStructWithName(vx_context context, vx_size size,
                                                              const vx_char *type_name);
VX_API_ENTRY vx_status VX_API_CALL vxGetUserStructNameByEnum(vx_context context,
                                                             vx_enum user_struct_type,
                                                             vx_char *type_name, vx_size name_size);
VX_API_ENTRY vx_status VX_API_CALL vxGetUserStructEnumByName(vx_context context,
                                                             const vx_char *type_name,
                                                             vx_enum *user_struct_type);
VX_API_ENTRY vx_status VX_API_CALL vxAllocateUserKernelId(vx_context context,
                                                          vx_enum *pKernelEnumId);
VX_API_ENTRY vx_status VX_API_CALL vxAllocateUserKernelLibraryId(vx_context context,
                                                                 vx_enum *pLibraryId);

/* Images. */

VX_API_ENTRY vx_image VX_API_CALL vxCreateImageFromROI(vx_image img, const vx_rectangle_t *rect);
VX_API_ENTRY vx_status VX_API_CALL vxSetImageAttribute(vx_image image, vx_enum attribute,
                                                       const void *ptr, vx_size size);
VX_API_ENTRY vx_image VX_API_CALL vxCreateImageFromChannel(vx_image img, vx_enum channel);

/* Kernels. */

VX_API_ENTRY vx_status VX_API_CALL vxRegisterKernelLibrary(vx_context context,
                                                           const vx_char *module,
                                                           vx_publish_kernels_f publish,
                                                           vx_unpublish_kernels_f unpublish);
VX_API_ENTRY vx_status VX_API_CALL vxLoadKernels(vx_context context, const vx_char *module);
VX_API_ENTRY vx_status VX_API_CALL vxUnloadKernels(vx_context context, const vx_char *module);
VX_API_ENTRY vx_kernel VX_API_CALL
vxAddUserKernel(vx_context context, const vx_char name[VX_MAX_KERNEL_NAME], vx_enum enumeration,
                vx_kernel_f func_ptr, vx_uint32 numParams, vx_kernel_validate_f validate,
                vx_kernel_initialize_f init, vx_kernel_deinitialize_f deinit);
VX_API_ENTRY vx_status VX_API_CALL vxFinalizeKernel(vx_kernel kernel);
VX_API_ENTRY vx_status VX_API_CALL vxAddParameterToKernel(vx_kernel kernel, vx_uint32 index,
                                                          vx_enum dir, vx_enum data_type,
                                                          vx_enum state);
VX_API_ENTRY vx_status VX_API_CALL vxRemoveKernel(vx_kernel kernel);
VX_API_ENTRY vx_status VX_API_CALL vxSetKernelAttribute(vx_kernel kernel, vx_enum attribute,
                                                        const void *ptr, vx_size size);

/* Graphs and nodes. */

VX_API_ENTRY vx_status VX_API_CALL vxSetGraphAttribute(vx_graph graph, vx_enum attribute,
                                                       const void *ptr, vx_size size);
VX_API_ENTRY vx_status VX_API_CALL vxAssignNodeCallback(vx_node node, vx_nodecomplete_f callback);
VX_API_ENTRY vx_nodecomplete_f VX_API_CALL vxRetrieveNodeCallback(vx_node node);
VX_API_ENTRY vx_status VX_API_CALL vxReplicateNode(vx_graph graph, vx_node first_node,
                                                   vx_bool replicate[],
                                                   vx_uint32 number_of_parameters);

/* Scalars. */

VX_API_ENTRY vx_scalar VX_API_CALL vxCreateVirtualScalar(vx_graph graph, vx_enum data_type);

/* Lookup tables. */

VX_API_ENTRY vx_lut VX_API_CALL vxCreateVirtualLUT(vx_graph graph, vx_enum data_type,
                                                   vx_size count);

/* Distributions. */

VX_API_ENTRY vx_distribution VX_API_CALL vxCreateVirtualDistribution(vx_graph graph,
                                                                     vx_size numBins,
                                                                     vx_int32 offset,
                                                                     vx_uint32 range);

/* Thresholds. */

VX_API_ENTRY vx_threshold VX_API_CALL vxCreateVirtualThresholdForImage(vx_graph graph,
                                                                       vx_enum thresh_type,
                                                                       vx_df_image input_format,
                                                                       vx_df_image output_format);
VX_API_ENTRY vx_status VX_API_CALL vxSetThresholdAttribute(vx_threshold thresh, vx_enum attribute,
                                                           const void *ptr, vx_size size);

/* Convolutions. */

VX_API_ENTRY vx_convolution VX_API_CALL vxCreateVirtualConvolution(vx_graph graph, vx_size columns,
                                                                   vx_size rows);

/* Matrices. */

VX_API_ENTRY vx_matrix VX_API_CALL vxCreateMatrix(vx_context context, vx_enum data_type,
                                                  vx_size columns, vx_size rows);
VX_API_ENTRY vx_matrix VX_API_CALL vxCreateVirtualMatrix(vx_graph graph, vx_enum data_type,
                                                         vx_size columns, vx_size rows);
VX_API_ENTRY vx_matrix VX_API_CALL vxCreateMatrixFromPattern(vx_context context, vx_enum pattern,
                                                             vx_size columns, vx_size rows);
VX_API_ENTRY vx_matrix VX_API_CALL vxCreateMatrixFromPatternAndOrigin(vx_context context,
                                                                      vx_enum pattern,
                                                                      vx_size columns, vx_size rows,
                                                                      vx_size origin_col,
                                                                      vx_size origin_row);
VX_API_ENTRY vx_status VX_API_CALL vxReleaseMatrix(vx_matrix *mat);
VX_API_ENTRY vx_status VX_API_CALL vxQueryMatrix(vx_matrix mat, vx_enum attribute, void *ptr,
                                                 vx_size size);
VX_API_ENTRY vx_status VX_API_CALL vxCopyMatrix(vx_matrix matrix, void *user_ptr, vx_enum usage,
                                                vx_enum user_mem_type);

/* Pyramids. */

VX_API_ENTRY vx_pyramid VX_API_CALL vxCreatePyramid(vx_context context, vx_size levels,
                                                    vx_float32 scale, vx_uint32 width,
                                                    vx_uint32 height, vx_df_image format);
VX_API_ENTRY vx_pyramid VX_API_CALL vxCreateVirtualPyramid(vx_graph graph, vx_size levels,
                                                           vx_float32 scale, vx_uint32 width,
                                                           vx_uint32 height, vx_df_image format);
VX_API_ENTRY vx_status VX_API_CALL vxReleasePyramid(vx_pyramid *pyr);
VX_API_ENTRY vx_status VX_API_CALL vxQueryPyramid(vx_pyramid pyr, vx_enum attribute, void *ptr,
                                                  vx_size size);
VX_API_ENTRY vx_image VX_API_CALL vxGetPyramidLevel(vx_pyramid pyr, vx_uint32 index);

/* Remaps. */

VX_API_ENTRY vx_remap VX_API_CALL vxCreateRemap(vx_context context, vx_uint32 src_width,
                                                vx_uint32 src_height, vx_uint32 dst_width,
                                                vx_uint32 dst_height);
VX_API_ENTRY vx_remap VX_API_CALL vxCreateVirtualRemap(vx_graph graph, vx_uint32 src_width,
                                                       vx_uint32 src_height, vx_uint32 dst_width,
                                                       vx_uint32 dst_height);
VX_API_ENTRY vx_status VX_API_CALL vxReleaseRemap(vx_remap *table);
VX_API_ENTRY vx_status VX_API_CALL vxMapRemapPatch(vx_remap remap, const vx_rectangle_t *rect,
                                                   vx_map_id *map_id, vx_size *stride_y, void **ptr,
                                                   vx_enum coordinate_type, vx_enum usage,
                                                   vx_enum mem_type);
VX_API_ENTRY vx_status VX_API_CALL vxUnmapRemapPatch(vx_remap remap, vx_map_id map_id);
VX_API_ENTRY vx_status VX_API_CALL vxCopyRemapPatch(vx_remap remap, const vx_rectangle_t *rect,
                                                    vx_size user_stride_y, void *user_ptr,
                                                    vx_enum user_coordinate_type, vx_enum usage,
                                                    vx_enum user_mem_type);
VX_API_ENTRY vx_status VX_API_CALL vxQueryRemap(vx_remap table, vx_enum attribute, void *ptr,
                                                vx_size size);

/* Arrays. */

VX_API_ENTRY vx_array VX_API_CALL vxCreateVirtualArray(vx_graph graph, vx_enum item_type,
                                                       vx_size capacity);

/* Object arrays. */

VX_API_ENTRY vx_object_array VX_API_CALL vxCreateObjectArray(vx_context context,
                                                             vx_reference exemplar, vx_size count);
VX_API_ENTRY vx_object_array VX_API_CALL vxCreateVirtualObjectArray(vx_graph graph,
                                                                    vx_reference exemplar,
                                                                    vx_size count);
VX_API_ENTRY vx_reference VX_API_CALL vxGetObjectArrayItem(vx_object_array arr, vx_uint32 index);
VX_API_ENTRY vx_status VX_API_CALL vxReleaseObjectArray(vx_object_array *arr);
VX_API_ENTRY vx_status VX_API_CALL vxQueryObjectArray(vx_object_array arr, vx_enum attribute,
                                                      void *ptr, vx_size size);

/* Meta formats. */

VX_API_ENTRY vx_status VX_API_CALL vxSetMetaFormatAttribute(vx_meta_format meta, vx_enum attribute,
                                                            const void *ptr, vx_size size);
VX_API_ENTRY vx_status VX_API_CALL vxSetMetaFormatFromReference(vx_meta_format meta,
                                                                vx_reference exemplar);
VX_API_ENTRY vx_status VX_API_CALL vxQueryMetaFormatAttribute(vx_meta_format meta,
                                                              vx_enum attribute, void *ptr,
                                                              vx_size size);

/* Tensors. */

VX_API_ENTRY vx_tensor VX_API_CALL vxCreateTensor(vx_context context, vx_size number_of_dims,
                                                  const vx_size *dims, vx_enum data_type,
                                                  vx_int8 fixed_point_position);
VX_API_ENTRY vx_object_array VX_API_CALL
vxCreateImageObjectArrayFromTensor(vx_tensor tensor, const vx_rectangle_t *rect, vx_size array_size,
                                   vx_size jump, vx_df_image image_format);
VX_API_ENTRY vx_tensor VX_API_CALL vxCreateTensorFromView(vx_tensor tensor, vx_size number_of_dims,
                                                          const vx_size *view_start,
                                                          const vx_size *view_end);
VX_API_ENTRY vx_tensor VX_API_CALL vxCreateTensorFromHandle(
    vx_context context, vx_size number_of_dims, const vx_size *dims, vx_enum data_type,
    vx_int8 fixed_point_position, const vx_size *stride, void *ptr, vx_enum memory_type);
VX_API_ENTRY vx_status VX_API_CALL vxSwapTensorHandle(vx_tensor tensor, void *new_ptr,
                                                      void **prev_ptr);
VX_API_ENTRY vx_tensor VX_API_CALL vxCreateVirtualTensor(vx_graph graph, vx_size number_of_dims,
                                                         const vx_size *dims, vx_enum data_type,
                                                         vx_int8 fixed_point_position);
VX_API_ENTRY vx_status VX_API_CALL vxCopyTensorPatch(vx_tensor tensor, vx_size number_of_dims,
                                                     const vx_size *view_start,
                                                     const vx_size *view_end,
                                                     const vx_size *user_stride, void *user_ptr,
                                                     vx_enum usage, vx_enum user_memory_type);
VX_API_ENTRY vx_status VX_API_CALL vxMapTensorPatch(vx_tensor tensor, vx_size number_of_dims,
                                                    const vx_size *view_start,
                                                    const vx_size *view_end, vx_map_id *map_id,
                                                    vx_size *stride, void **ptr, vx_enum usage,
                                                    vx_enum mem_type);
VX_API_ENTRY vx_status VX_API_CALL vxUnmapTensorPatch(vx_tensor tensor, vx_map_id map_id);
VX_API_ENTRY vx_status VX_API_CALL vxQueryTensor(vx_tensor tensor, vx_enum attribute, void *ptr,
                                                 vx_size size);
VX_API_ENTRY vx_status VX_API_CALL vxReleaseTensor(vx_tensor *tensor);

#ifdef __cplusplus
}
#endif

#endif
