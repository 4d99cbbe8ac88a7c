# Keeps the verdicts in the file CHECKED where the linter says nothing, there is one, all are proved, and each span opens; else it fails.
set(here ${CMAKE_CURRENT_LIST_DIR}/from_the_sdk)
execute_process(COMMAND ${PIOTOOL_LINT} ${here}.pio --config ${here}.toml --stimulus ${here}.stim --clocks 700 --mhz 125 --werror
    RESULT_VARIABLE status)
if(NOT status EQUAL 0)
    message(FATAL_ERROR "piotool-lint ended with ${status}")
endif()
execute_process(COMMAND ${PIOTOOL} check --source from_the_sdk.pio --config from_the_sdk.toml
    OUTPUT_VARIABLE verdicts RESULT_VARIABLE status)
message("${verdicts}")
if(NOT status EQUAL 0)
    message(FATAL_ERROR "piotool ended with ${status}")
elseif(verdicts STREQUAL "")
    message(FATAL_ERROR "no span is declared")
elseif(verdicts MATCHES "opens no|closes no")
    message(FATAL_ERROR "a span never opens: look at its pins and edges")
endif()
file(WRITE ${CHECKED} "${verdicts}")
