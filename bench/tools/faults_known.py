"""Of faults.py: what `look check` makes of some, where it isn't what is wished (amiss, hinted, missed); and which somebody chose who didn't know the rules."""
OTHERWISE: dict[str, str] = {"flogi-credit": "missed"}  # says nothing over FCoE
GIVEN = set(
    """
vreq-dst vreq-no-mac vreq-mac vreq-f vreq-tagged sol-size-0 sol-size-256 sol-size-65535 sol-no-size sol-no-name sol-no-mac sol-order sol-twice
sol-critical sol-unknown sol-flags sol-f sol-as sol-reserved-flags sol-version sol-reserved sol-list-short sol-list-long sol-desc-length sol-name-0
sol-name-other sol-src sol-dst sol-broadcast sol-vlan flogi-unsolicited flogi-before-adv flogi-unavailable flogi-unpadded flogi-dst flogi-other-fcf
flogi-vlan flogi-src flogi-flags flogi-no-mac flogi-order flogi-mac-set flogi-sid flogi-did flogi-rctl flogi-type flogi-rxid flogi-fctl flogi-class3
flogi-size-small flogi-size-big flogi-size-odd flogi-fport flogi-wwpn-0 flogi-wwnn-0 flogi-name-form flogi-credit flogi-version flogi-short
flogi-at-once fdisc-sid fdisc-src fdisc-cmd fdisc-first fdisc-wwpn fdisc-no-npiv logo-sid logo-mac logo-wwpn logo-in-fcoe src-enode src-map src-npiv
sid-wrong before-grant before-flogi fcoe-vlan fcoe-untagged fcoe-dst fcoe-to-fpma after-logo after-clear ka-none ka-slow-2 ka-slow-3 ka-dst ka-vlan
ka-untagged ka-mac ka-src vnka-none vnka-slow-2 vnka-src vnka-vx vnka-fcid vnka-wwpn ka-fast ka-quiet silence crc sof-i2 sof-f sof-n3 sof-bad eof-n
eof-a eof-ni eof-bad fcoe-version fcoe-reserved fcoe-trailer fcoe-long fcoe-words receive-size padding seq-back seq-jump seq-first seq-id fctl-context
fctl-reply fctl-initiative fctl-end fctl-last rctl-els rctl-bad type-els df-ctl cs-ctl did-reserved param rx-id tag-priority plogi-first data-no-plogi
prli-early cmnd-early plogi-wwpn plogi-class3 plogi-size plogi-class3-size plogi-sequences plogi-acc-class3 plogi-acc-name plogi-acc-size prli-page
prli-length prli-function prli-acc-code ox-reuse ox-accept rscn-silent rscn-late rscn-later rscn-payload logo-silent rtv-silent rtv-values
adisc-values rjt-code abts-none abts-payload abts-silent abts-unknown abts-at-once data-early fcp-dl cmnd-short cmnd-class rsp-none rsp-early
rsp-short ns-no-plogi ct-type ct-subtype ct-revision ct-short ct-symbolic rft-other rft-none reg-none rft-empty rnn-name scr-none scr-function scr-dst
gpn-type
""".split()
)
