NAME mesh
ROWS
 N minus_load
 E balance_1
 E balance_2
 E side_3
 E side_4
 E side_5
 E side_6
 E side_7
 E side_8
 E side_9
 E side_10
 E side_11
 E side_12
 E side_13
 E side_14
 L strength_1
 L strength_2
 L strength_3
 L strength_4
 L strength_5
 L strength_6
 L strength_7
 L strength_8
 L strength_9
 L strength_10
 L strength_11
 L strength_12
 L strength_13
 L strength_14
 L strength_15
 L strength_16
 L strength_17
 L strength_18
 L strength_19
 L strength_20
 L strength_21
 L strength_22
 L strength_23
 L strength_24
 L strength_25
 L strength_26
 L strength_27
 L strength_28
 L strength_29
 L strength_30
 L strength_31
 L strength_32
 L strength_33
 L strength_34
 L strength_35
 L strength_36
 L strength_37
 L strength_38
 L strength_39
 L strength_40
 L strength_41
 L strength_42
 L strength_43
 L strength_44
 L strength_45
 L strength_46
 L strength_47
 L strength_48
COLUMNS
 l minus_load -1
 l side_3 1
 l side_5 1
 t_4 balance_1 1
 t_4 balance_2 -1
 t_4 side_6 -1
 t_4 side_12 1
 t_4 strength_37 10
 t_4 strength_38 10
 t_4 strength_39 30
 t_4 strength_40 30
 t_4 strength_41 10
 t_4 strength_42 10
 t_4 strength_43 -10
 t_4 strength_44 -10
 t_4 strength_45 -30
 t_4 strength_46 -30
 t_4 strength_47 -10
 t_4 strength_48 -10
 sy_4 balance_2 1
 sy_4 side_5 1
 sy_4 strength_37 -15
 sy_4 strength_38 -5
 sy_4 strength_39 -5
 sy_4 strength_40 5
 sy_4 strength_41 5
 sy_4 strength_42 15
 sy_4 strength_43 15
 sy_4 strength_44 5
 sy_4 strength_45 5
 sy_4 strength_46 -5
 sy_4 strength_47 -5
 sy_4 strength_48 -15
 sx_4 balance_1 -1
 sx_4 side_11 1
 sx_4 strength_37 15
 sx_4 strength_38 5
 sx_4 strength_39 5
 sx_4 strength_40 -5
 sx_4 strength_41 -5
 sx_4 strength_42 -15
 sx_4 strength_43 -15
 sx_4 strength_44 -5
 sx_4 strength_45 -5
 sx_4 strength_46 5
 sx_4 strength_47 5
 sx_4 strength_48 15
 t_3 balance_1 1
 t_3 balance_2 1
 t_3 side_4 -1
 t_3 side_10 1
 t_3 strength_25 10
 t_3 strength_26 10
 t_3 strength_27 30
 t_3 strength_28 30
 t_3 strength_29 10
 t_3 strength_30 10
 t_3 strength_31 -10
 t_3 strength_32 -10
 t_3 strength_33 -30
 t_3 strength_34 -30
 t_3 strength_35 -10
 t_3 strength_36 -10
 sy_3 balance_2 1
 sy_3 side_3 1
 sy_3 strength_25 -15
 sy_3 strength_26 -5
 sy_3 strength_27 -5
 sy_3 strength_28 5
 sy_3 strength_29 5
 sy_3 strength_30 15
 sy_3 strength_31 15
 sy_3 strength_32 5
 sy_3 strength_33 5
 sy_3 strength_34 -5
 sy_3 strength_35 -5
 sy_3 strength_36 -15
 sx_3 balance_1 1
 sx_3 side_9 1
 sx_3 strength_25 15
 sx_3 strength_26 5
 sx_3 strength_27 5
 sx_3 strength_28 -5
 sx_3 strength_29 -5
 sx_3 strength_30 -15
 sx_3 strength_31 -15
 sx_3 strength_32 -5
 sx_3 strength_33 -5
 sx_3 strength_34 5
 sx_3 strength_35 5
 sx_3 strength_36 15
 t_2 balance_1 -1
 t_2 balance_2 1
 t_2 side_8 1
 t_2 strength_13 10
 t_2 strength_14 10
 t_2 strength_15 30
 t_2 strength_16 30
 t_2 strength_17 10
 t_2 strength_18 10
 t_2 strength_19 -10
 t_2 strength_20 -10
 t_2 strength_21 -30
 t_2 strength_22 -30
 t_2 strength_23 -10
 t_2 strength_24 -10
 sy_2 balance_2 -1
 sy_2 strength_13 -15
 sy_2 strength_14 -5
 sy_2 strength_15 -5
 sy_2 strength_16 5
 sy_2 strength_17 5
 sy_2 strength_18 15
 sy_2 strength_19 15
 sy_2 strength_20 5
 sy_2 strength_21 5
 sy_2 strength_22 -5
 sy_2 strength_23 -5
 sy_2 strength_24 -15
 sx_2 balance_1 1
 sx_2 side_7 1
 sx_2 strength_13 15
 sx_2 strength_14 5
 sx_2 strength_15 5
 sx_2 strength_16 -5
 sx_2 strength_17 -5
 sx_2 strength_18 -15
 sx_2 strength_19 -15
 sx_2 strength_20 -5
 sx_2 strength_21 -5
 sx_2 strength_22 5
 sx_2 strength_23 5
 sx_2 strength_24 15
 t_1 balance_1 -1
 t_1 balance_2 -1
 t_1 side_14 1
 t_1 strength_1 10
 t_1 strength_2 10
 t_1 strength_3 30
 t_1 strength_4 30
 t_1 strength_5 10
 t_1 strength_6 10
 t_1 strength_7 -10
 t_1 strength_8 -10
 t_1 strength_9 -30
 t_1 strength_10 -30
 t_1 strength_11 -10
 t_1 strength_12 -10
 sy_1 balance_2 -1
 sy_1 strength_1 -15
 sy_1 strength_2 -5
 sy_1 strength_3 -5
 sy_1 strength_4 5
 sy_1 strength_5 5
 sy_1 strength_6 15
 sy_1 strength_7 15
 sy_1 strength_8 5
 sy_1 strength_9 5
 sy_1 strength_10 -5
 sy_1 strength_11 -5
 sy_1 strength_12 -15
 sx_1 balance_1 -1
 sx_1 side_13 1
 sx_1 strength_1 15
 sx_1 strength_2 5
 sx_1 strength_3 5
 sx_1 strength_4 -5
 sx_1 strength_5 -5
 sx_1 strength_6 -15
 sx_1 strength_7 -15
 sx_1 strength_8 -5
 sx_1 strength_9 -5
 sx_1 strength_10 5
 sx_1 strength_11 5
 sx_1 strength_12 15
RHS
 right strength_1 300
 right strength_2 140
 right strength_3 300
 right strength_4 300
 right strength_5 140
 right strength_6 300
 right strength_7 300
 right strength_8 140
 right strength_9 300
 right strength_10 300
 right strength_11 140
 right strength_12 300
 right strength_13 300
 right strength_14 140
 right strength_15 300
 right strength_16 300
 right strength_17 140
 right strength_18 300
 right strength_19 300
 right strength_20 140
 right strength_21 300
 right strength_22 300
 right strength_23 140
 right strength_24 300
 right strength_25 300
 right strength_26 140
 right strength_27 300
 right strength_28 300
 right strength_29 140
 right strength_30 300
 right strength_31 300
 right strength_32 140
 right strength_33 300
 right strength_34 300
 right strength_35 140
 right strength_36 300
 right strength_37 300
 right strength_38 140
 right strength_39 300
 right strength_40 300
 right strength_41 140
 right strength_42 300
 right strength_43 300
 right strength_44 140
 right strength_45 300
 right strength_46 300
 right strength_47 140
 right strength_48 300
BOUNDS
 FR free sx_1
 FR free sy_1
 FR free t_1
 FR free sx_2
 FR free sy_2
 FR free t_2
 FR free sx_3
 FR free sy_3
 FR free t_3
 FR free sx_4
 FR free sy_4
 FR free t_4
 FR free l
ENDATA
