/* stand-in.c: the model under the library's names. It serves to try the tests themselves: against it they find no difference, and against a
 * copy of the model with a planted fault they must find one (planted-faults). It proves nothing about the library. */
#define model_fresh wg_fresh
#define model_step wg_step
#define model_burst wg_burst
#define model_lag wg_lag
#define model_write_group wg_write_group
#define model_read_group wg_read_group
#define model_absorb wg_absorb
#define model_repair wg_repair
#define model_members wg_members
#define model_read_line wg_read_line
#define model_check_line wg_check_line
#define model_write_line wg_write_line
#define model_report wg_report
#define model_unpadded unpadded_again /* no call of the library */
#include <model.c>
#include <model_groups.c>
#include <model_rounds.c>
