Maximize
 load: l
Subject To
 balance_1: -1 sx_1 -1 t_1 +1 sx_2 -1 t_2 +1 sx_3 +1 t_3 -1 sx_4 +1 t_4 = 0
 balance_2: -1 sy_1 -1 t_1 -1 sy_2 +1 t_2 +1 sy_3 +1 t_3 +1 sy_4 -1 t_4 = 0
 side_3: +1 sy_3 +1 l = 0
 side_4: -1 t_3 = 0
 side_5: +1 sy_4 +1 l = 0
 side_6: -1 t_4 = 0
 side_7: +1 sx_2 = 0
 side_8: +1 t_2 = 0
 side_9: +1 sx_3 = 0
 side_10: +1 t_3 = 0
 side_11: +1 sx_4 = 0
 side_12: +1 t_4 = 0
 side_13: +1 sx_1 = 0
 side_14: +1 t_1 = 0
 strength_1: +15 sx_1 -15 sy_1 +10 t_1 <= 300
 strength_2: +5 sx_1 -5 sy_1 +10 t_1 <= 140
 strength_3: +5 sx_1 -5 sy_1 +30 t_1 <= 300
 strength_4: -5 sx_1 +5 sy_1 +30 t_1 <= 300
 strength_5: -5 sx_1 +5 sy_1 +10 t_1 <= 140
 strength_6: -15 sx_1 +15 sy_1 +10 t_1 <= 300
 strength_7: -15 sx_1 +15 sy_1 -10 t_1 <= 300
 strength_8: -5 sx_1 +5 sy_1 -10 t_1 <= 140
 strength_9: -5 sx_1 +5 sy_1 -30 t_1 <= 300
 strength_10: +5 sx_1 -5 sy_1 -30 t_1 <= 300
 strength_11: +5 sx_1 -5 sy_1 -10 t_1 <= 140
 strength_12: +15 sx_1 -15 sy_1 -10 t_1 <= 300
 strength_13: +15 sx_2 -15 sy_2 +10 t_2 <= 300
 strength_14: +5 sx_2 -5 sy_2 +10 t_2 <= 140
 strength_15: +5 sx_2 -5 sy_2 +30 t_2 <= 300
 strength_16: -5 sx_2 +5 sy_2 +30 t_2 <= 300
 strength_17: -5 sx_2 +5 sy_2 +10 t_2 <= 140
 strength_18: -15 sx_2 +15 sy_2 +10 t_2 <= 300
 strength_19: -15 sx_2 +15 sy_2 -10 t_2 <= 300
 strength_20: -5 sx_2 +5 sy_2 -10 t_2 <= 140
 strength_21: -5 sx_2 +5 sy_2 -30 t_2 <= 300
 strength_22: +5 sx_2 -5 sy_2 -30 t_2 <= 300
 strength_23: +5 sx_2 -5 sy_2 -10 t_2 <= 140
 strength_24: +15 sx_2 -15 sy_2 -10 t_2 <= 300
 strength_25: +15 sx_3 -15 sy_3 +10 t_3 <= 300
 strength_26: +5 sx_3 -5 sy_3 +10 t_3 <= 140
 strength_27: +5 sx_3 -5 sy_3 +30 t_3 <= 300
 strength_28: -5 sx_3 +5 sy_3 +30 t_3 <= 300
 strength_29: -5 sx_3 +5 sy_3 +10 t_3 <= 140
 strength_30: -15 sx_3 +15 sy_3 +10 t_3 <= 300
 strength_31: -15 sx_3 +15 sy_3 -10 t_3 <= 300
 strength_32: -5 sx_3 +5 sy_3 -10 t_3 <= 140
 strength_33: -5 sx_3 +5 sy_3 -30 t_3 <= 300
 strength_34: +5 sx_3 -5 sy_3 -30 t_3 <= 300
 strength_35: +5 sx_3 -5 sy_3 -10 t_3 <= 140
 strength_36: +15 sx_3 -15 sy_3 -10 t_3 <= 300
 strength_37: +15 sx_4 -15 sy_4 +10 t_4 <= 300
 strength_38: +5 sx_4 -5 sy_4 +10 t_4 <= 140
 strength_39: +5 sx_4 -5 sy_4 +30 t_4 <= 300
 strength_40: -5 sx_4 +5 sy_4 +30 t_4 <= 300
 strength_41: -5 sx_4 +5 sy_4 +10 t_4 <= 140
 strength_42: -15 sx_4 +15 sy_4 +10 t_4 <= 300
 strength_43: -15 sx_4 +15 sy_4 -10 t_4 <= 300
 strength_44: -5 sx_4 +5 sy_4 -10 t_4 <= 140
 strength_45: -5 sx_4 +5 sy_4 -30 t_4 <= 300
 strength_46: +5 sx_4 -5 sy_4 -30 t_4 <= 300
 strength_47: +5 sx_4 -5 sy_4 -10 t_4 <= 140
 strength_48: +15 sx_4 -15 sy_4 -10 t_4 <= 300
Bounds
 l free
 sx_1 free
 sy_1 free
 t_1 free
 sx_2 free
 sy_2 free
 t_2 free
 sx_3 free
 sy_3 free
 t_3 free
 sx_4 free
 sy_4 free
 t_4 free
End
