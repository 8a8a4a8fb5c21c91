export MOLANGX_SRC=../shared/docs/src SORBRUDDER_LIB=$WT/m11lib/staticlib
