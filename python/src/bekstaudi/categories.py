"""The general category of each code point, in Unicode 15.0.0.

>>> from bekstaudi.categories import NAMES, TRIE
>>> [NAMES[it] for it in TRIE.values("A\u00df7 ")]
['Lu', 'Ll', 'Nd', 'Zs']

The values are those of ICU's u_charType. Above 0x10FFFF the value is 255, which has no name.
data/make writes the tables from Unicode's DerivedGeneralCategory.txt:
Copyright (C) 2022 Unicode, Inc., under the terms of https://www.unicode.org/copyright.html.
"""
from base64 import b85decode as _b85decode
from zlib import decompress as _decompress

from bekstaudi import Trie

__all__ = ["NAMES", "TRIE", "UNICODE_VERSION"]

UNICODE_VERSION = "15.0.0"

NAMES = (
    "Cn", "Lu", "Ll", "Lt", "Lm", "Lo", "Mn", "Me", "Mc", "Nd",
    "Nl", "No", "Zs", "Zl", "Zp", "Cc", "Cf", "Co", "Cs", "Pd",
    "Ps", "Pe", "Pc", "Po", "Sm", "Sc", "Sk", "So", "Pi", "Pf",
)

TRIE = Trie(_decompress(_b85decode(
    b"c-rkdX^<pUnXjtyWo1=%b!Sgib!Jso_gp>GJy%V4-2>rBBPbXi6QKwmjKgruFrl2{t{T7u>aGX^im0PV4ATKK7(l4u;>sdya4ah>"
    b"1IDhaA~B*kJ1i{g?&9i#GqUf>cVuN&W>v`#4ZqiwnJ@F5-}~Noy|3%%U-Hf*SUNJjX_xNgb{hbk0ImcNfLB2^@xjDhiNlHM<d)=h"
    b"$%Dy5$*I)aQ`e^MOTCghPJ6TVG3}e$|7bOM30#Cvz%l(KeXD+pen_86zbpNj^keCaaf<QR#y=P^b5iExnTIlo?CY~vW*^A@KD*hx"
    b"!o1%+X1;FZ@{#*Sj*c9k`&jPpa=*(RKl+i;?~J}Y+8(=jY!Q0t8)MInt+r0HK5E@-J!O^0#TS}3jDK+aGvkks=a#&6$u&#9zr@I&"
    b"lK;#6-{$`>-zi*BxV!L^LaBI0@k_;jElx~qnYdx%$qCEeV&7ojXWwccOdhq5+N+(T_PNe&&S7V|bWUlp^lWKGd3$+Z`Df*E_hgnn"
    b">3-dP(Oq77L*?U@{gsC*smavj-?%5D>vvuJoSM99@>i7yCsQopI<HR7OnLQpOzoTc@l<N^+LW{OsD1j<FD`v_X?oervK`CzFFUd<"
    b"xt!KowtU<2z01G1{Q2c;S1iK!uK3D|pRUNST(dI8+x5@>k30RT&F9bQk3IcnNpzX>SMFQsJ^y0mis|jsS4}@S{p;!4stZ=#x#~Yw"
    b"tzW%!^?}ttU%h;0+sxjXXJ)2mx6Xcb_VL+cv#(q8XAHk~>GC!AtohB5skQb`BMGd07(L&<_TSd7Ue{Q6@jCDAC)Pc@?$_(qum8aM"
    b"1M3&zq4iT6wr;q7!@&*DWp#6<d7`-;r3=k#%{!5#el5}=cK<y|uk!o3#v=TAcC<PM$DosQa_S0iPES=Atwn2X^}#Yu$5r1@J+pFt"
    b"1((Fq@f}tCB&S7avAQ>A&aUpL;-?GI^$PNI9lG8^p0*Y4B6SzQ0yr^s4DD5~&oMY{;<w+e9-DoHl)XJqzx=S;Of^%7t1nd(8%2L{"
    b"(tgy!f&A@xCpW%vcXD@fg4bWY5r3aU*Vm)p+tF_n-dyq8em}}zh<;c4`n!JPqIGKpW9F8PZ_6ygyEpEt-jB*1M889%?0=%Cmp5kS"
    b"X!#PluR*^}=y&Semn$;9XzJu?9?yIMyn7B~<k;-_r2a?drcFPdd421Eh09z$w}-vCrijO|2i5!wc*h*>;X8A*r|*&6{=7?YeHr}8"
    b"+^v;=pL==k`)Qod%-i#L9Mk5dC_gj*$y|FLzkky_{eJrVdGjBh-&gr7^!A;ZFU;RI|E+o2<HPf38~;qo&gsw2Pn$2zpJD7YlC>qZ"
    b"6}7qA_F^}U;B-Q5OKn?i56@pzyRsHMPqOx-*Vk^T-Ch&*@2Ne4%KxxN^M`By%WE&fPg}5Ftnbf<;0%@j!u+bb{0?IsV|?XEvwl*2"
    b"OC3>Y{i3=U&&_0q@2=l~YVED#=ez3n)&Ge+T?(JBKVKIs`AR)(wP@OD;Q3@5<;Kd9uUT7AowcKD8=D&5_X{$(ol_fUG^Wj+jYW7#"
    b"<ElnD1<)CNuCcFi8m7d?%?cK8%q&{>Hy&^Nw9!9*Z!7qt9Dt@58ovu|?~6HS$RxLBHtF4Mu4|rE9HzA}YKT|AlgFIlq8YEXQN*P%"
    b"uWGUJy|MYO=6THzH5brcQR{n@wP<~!88oiR(a$$;Lg}l`JNfr}n~ybzlg%E_3`z$GCOY}yR_Uo&Bm7eCvl%D%eDep@-sQ$&KUA?f"
    b"ZQ*^^%(mi>_aL&V7xaV4ZAD?-;dCD3#_C&tI)_-GPfXEVxi!;jv{I8Nv}peQ6;c0fEkB3e+QL84*4apM?CO%73*ehb4qni@JM~}H"
    b"bDah7G`OO5UF+u7e^=?3J6iX&j?F&Y`j^(Tts|`k@MA<(qRz2dT1WlzTa?q=FMv;{CfdhlSF{&EvV8<t?MG3G7ZF`n(c9zOr;^lr"
    b"{?Q5J_h9nfZG1haeR2Ep_DuOfE&lqvCwceMtJ~q<-!i(Vy}ym6_wMAkQMs#&-SlC>N83MYhtbcGHZ4`xf7_0xwrkS8d2UoncSb|0"
    b"-R^8Fdc5Ijv=%d+i)Mn_*hh4XcIQnU`OWE_JFKu?f0<o`J31fgT-EtpXK&{~XNNHkzuob6*Q1@NQR9`|T2c4Mdn?xzaKgLbo=W%1"
    b"zmM&p%h9(T723jCm7SGyD#7iCryq5~za8nESvk|!`*TwH$E>YLGxf&4z4Dkv?|6JWEAjfrvwa`x<t)<5GgB{h@J!AMnDYx$-oAHo"
    b"SQ3P%_*!Z^lxL3(B@6cChN*pH29JLX{-Gp#ue3Qm*cc`H+T`Tirbt0jAUrv_;jF;?rW3Sn+HP&H_V?N|8h~YZ9DEP_DEu<K7d{1F"
    b"fkpjE(9}=Ucd>La%0CG{%k#TX{u@#*I6Vn|fUYl+x^l{;@pVHws{ZEm*7Rk()J?wfx1}FRA5KGKm2t9huCYtM%(%(8(|Evm!uS=+"
    b"8JXG4DVd#_lZ{Vh4rCt6(D4kHp3SKFmoiJT>YLeYc<p*t#mzgi!DG7A*T$!^yY%7GfgxMiof<CvV|FY8Mr_+Ip<khBJ9gf-GaPK&"
    b"aU9!DghIhCmM6-|P$)P>C%XF*0@p6Pu;N&5*>y~_oV4w-2`5d{4C~!t_pq)V?;$Z@>bHVd%gZE4CLuD(1TU5FI-sA(LlWXL5J4i9"
    b"WPi~^V#N{z&5+{98<pHhzW{rD(|k}y;Li(?Uuk9EM+EwifM=(b6G;FxG&VZ{5R}UaOlANjiU$P%e+rr%UF9BhMhiJ~jT3!B6yBqj"
    b"*d=pLrw7~w!|jM92$>bay-gr$dUhTF*DZm*RyeQQI{gC-U^sZ6Z5s%%2oT<f7^CY-joTI)HjDsGJO++X=CHUm9S#Y$*N?@<s%g4T"
    b"9w8K+p@OapZ3Tc8)w_T2J<%DX5eO7eh8MFDO>@!EH30NdDZHpA%JUomwr~EudPAjwk5;<Mm)SSVqVwU?jG~b+^0j&rw=o!j=!Omr"
    b"gExWzU0~Nx5q-<zU-LI&0D%ko3*1xu&hUk>!g>b)wSj(u3Ji)=Kzdinp;R&nxFv}8G8#6J_iS|U-XG9$k2+l)vO@St;tc?H5hKBh"
    b"E|`MooplkbcV+H$3g{UC-yQ(|x!Wc01KV@`qh9V_!Mrq~5X`%f;+@YO3dDPTu&Tg&qF>Zuk>$mNM(%j((%g+OHh>qLK*^=O<7zQ5"
    b"-~AqsoDw^r*w@A6>2P5;>RAcfWVDB=-tMz|8TAJ3pG=?kZy4UXclQsWf*L%5ID{9-!Mt7PVIR7T<PA2xuC+H!K5^QkOnJ)E!bm&-"
    b"L8jh@Gsu9*hNR$MeO$y=c1E9!j*AIgyX51wifsd80Hg6<Xb18qU6NAX?1AP91!bOGqV(z>Z3Caca*;lQBs<+A0qbVEI!=XRp(qF^"
    b"78+&g#pDD<8j}#R4iHBV19XgRsDRDHB~t?NkRKZ;of~}EI1g1d%TwFPCpsPUY~U9J*bG&9N7)D7IfiHr=Uq2SbqB<>z}G(PC|hGT"
    b"pjb8lR6>i!OUz<j%?H(ry$EqT6}%ZM8w|_<2p|BL10|5eK;SJ10Qn)+ZnxVK7zr<3DE3Fw2rt=eR#85K>g!CBhiw`3S=w(w-$VBt"
    b"5jQ=)$Cg8eq<9jIK(?rmCXYQ(FhC3|)Brr?J&!L$Q}&nd!!YXu<f-d=92qn)s$`K6RnSx9btXm)!^1CKGM6AMu6^YRtHG8!sC<`V"
    b"hsP8N;WT6r>n&0eaAHHMi>}%{GTk8t<fk5go-rrptMCiQbeCP+Ck$fFvB{B@mJ~x}@SdW;fe(?tL9>bMn@UuJZeE`oA?8TQAW19U"
    b"ob4Fi6Dp+D^<ug+nV7OnF#gD>w^4FBfxe{(Da>65Vjb-OwTWpNTrV^{*GE5oRV_ZK^@enQ`~ASNORA1b54mE}e#d51d61wftiD&z"
    b"drC2gl?SxFR5@8L%UO~mjgrBzJntUmNr$357!g2xhj{|FU70LY@Xw=}+$i}x!Zn}DB)(3dpHnDGYQ96>F`#WSw<HEr^JJsrpn95+"
    b"lOzum!oYS=1O#v<!RHX*OAlU$lwr(O(1jm+Byo<O(NLC?pb6*cQ3Ku<NmK*n91LVhT?f5!{i<L#0uo7lHK|%i8Y5lOo8$etEawA<"
    b"e03tkk~1WD?O?ksxP4y09Ri#|rVu^vn7xOJx~MW{1jI+cu=V>#YYdFXEsu#qBxO_MZ5=^kqGtFPImM*hI7M-ZL6IYn)F-WlypKJA"
    b"7-wq<ap;xs&TN@nj&<UiWV{bOlA}ki1DVlhUre&mI>~-4YXX|j$D&8s8{Hmc^&aK!!Lp1<GjyR+%`?{WB#*=(BRpBFCPnhJU_o_s"
    b"xg;imrhK$I-GfvH*}L&N!g(yrT@7Z%&JsI0Unmw`E~ls_n<rA)#jiDprU{1hLST7~&&}a5?hG3Zsc*Bj%UMMEZ=^97;LwS;5PjAM"
    b"Q4)ZE9ZX*MYWeroz$6zJ|DHvoybG|fWD6;XqWiN6Al3#Yi^tY_mBuI0@n(~i_K9j?m4iWwAo1HG{n|O2V(9R<v|-qzO%~zf3&5dS"
    b"hFiqElRO&$XacAYWWafrB9tx1Kv%ax%zCak@w2jlSc!~jV}SEzLjqwM`0VtqvjyR6#{`RmAmZ8aLfrI-F)-vKG&@RM4&;Xs?h!)`"
    b"DA3e-vvKNL;BM^mJWuo~*<doQU{|o*e~`aL<Gd3)%lbcHBMZmRgrE+?&u>)T#E^wZ-Ozo!uKOOMmGn@R%8D06!$x|4&X&NywpeFR"
    b"<j*z&JlOrYe1n~+1No4b3<={yLcb%9hn{dyeR|>*3!@OtIRPpR5YZxof-0JZILZuwVj-rNd?5Vxz`5Jc5pBs;BIUfp9h-(02g?AY"
    b"`%g^BMky(aJz^8s|3&y$o?8u09@&Qg$K>(8hr=uY7I<x=pHZ`T=&_HWG%e;z2HuIQ&ndg55^$+4tpqjVtV;U;GT|>Dv~emU%9yGT"
    b"lV?@4#YZXKXSbX__z7lKq8Q;t^v%vDeM+h+@dm4WoQG{mGM>ii0?BSxt!RFy3Kw>Z$_`Qqi$EX;hzJ%Q5M*-GL*xM)i}ao2!S-z`"
    b"Th8IqG@OF(4(WKDys~}A4GOwU)Ar@L5#lPxyJR%Ja|<DAZ8<(d&;pdFMe@=q4qY2R3s(Gj-a>aX3pBetZ<nv5&Ic)?;wTG|>Pr-+"
    b"@))l@DTa^eC&B|_2&K)&alDcn+v20+CpZKnNFSEfEc8ako_wHac&aoRk|AreHuORqLO3To#nlaOGCI@)`K%WLB6N38Z8sFxyzYw^"
    b"6ybn0CX7a2(VyW9$s^<8$o2a6oyF-iB+qvqhZ(jmiW)4?6ce>ToCpM^hl{@WCXZ&-4oNX(!z((sf==n!7md=Edo?(U<j5)Pzmd-F"
    b"JboC2e~%%^x&jMiqe#P%LXeDB)HS>*vjcmC4B0+`K7+`kCyBOoUs=P@c@UE~YTJgkFR;q?F%LC*3lBu$2V6P>DUeDwG&o5Rj>U%T"
    b"+uo`c#iAcc0Imr7W#{?4YfO~g(Of!NHpL%<|52!io6h!~3jyE!0Q4cq@`3KNB)f6LkJgFj#SIEzrF_WGs5uAbG@*d#MLD~(HJK3@"
    b"MwjP+i!pTPF|7d%7r6L;7c4JIUGiiSWRttW(LjR*{80lgf9<MAH-4o%>_1qDhz8^ook@041|(Tkzz^ERzurj4$5K5KVdpC#j%n2s"
    b"<wU~iE~0#KeD59Q|H!cWCgTGMKZ;T-hdr`KL5Px>BFCbzeF+2)*L;V#{C^)<UbQr#&m_?OmS{<d(-SeuTxY|>^7`<f$zffm<XdT<"
    b"$J7KY;8%?&WU=+^!UUKo3Ov&b0C{jw6y#T=`G>jTiOD5%1eG_SCrhoXnyLW2`v11g^U4"
)))
