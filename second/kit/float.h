/* See stddef.h beside this file. The compiler tells these of its own. */
#ifndef KIT_FLOAT_H
#define KIT_FLOAT_H
#define DBL_MANT_DIG __DBL_MANT_DIG__
#define DBL_MAX_EXP __DBL_MAX_EXP__
#define FLT_EVAL_METHOD __FLT_EVAL_METHOD__
#endif
