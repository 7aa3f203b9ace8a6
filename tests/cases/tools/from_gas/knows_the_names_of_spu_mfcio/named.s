	.set	MFC_PUT_CMD,0x7777
	rdch	$3,$SPU_RdEventStat
	wrch	$SPU_WrEventMask,$3
	wrch	$SPU_WrEventAck,$3
	rdch	$3,$SPU_RdSigNotify1
	rdch	$3,$spu_rdsignotify2
	rdch	$3,$SPU_RdEventMask
	rchcnt	$3,$CH03
	rdch	$3,ch29
	rdch	$3,29
	wrch	SPU_WrOutMbox,$3
	il	$3,MFC_SNDSIG_CMD
	il	$3,MFC_SNDSIGB_CMD
	il	$3,MFC_SNDSIGF_CMD | 0x100
	il	$3,MFC_SIGNAL_NOTIFY_1_EVENT|MFC_IN_MBOX_AVAILABLE_EVENT
	il	$3,MFC_PUT_CMD
	ila	$3,MFC_GET_CMD
	.data
MFC_GET_CMD: .long MFC_LLR_LOST_EVENT+MFC_TAG_STATUS_UPDATE_EVENT
